// One party chooses with a label. The other one has an arm for each label.
protocol order { begin.!{TEA: !<boolean>, COFFEE:}.?(int) }
protocol serve { begin.?{TEA: ?(boolean), COFFEE:}.!<int> }

party guest {
  let cash = 3;
  // In each block x does what its label asks for, and both leave it at the same place.
  if cash < 4 { outbranch x TEA; send x true; }
  else { outbranch x COFFEE; }
  recv x price int;
  close x;
}

party cafe {
  inbranch y {
    TEA: { recv y milk boolean; let price = 2; }
    COFFEE: { let price = 4; }
  }
  // What the arms have in common stands behind them.
  send y price;
  close y;
}

connect guest x order to cafe y serve;
