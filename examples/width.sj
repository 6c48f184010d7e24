// Choices of different width. A selection meets a branching that has more labels: the guest knows
// nothing of the cafe's CAKE. And an end with more labels to select stands for one with fewer: the
// friend, who gets the guest's end, wants no label but COFFEE.
protocol order { begin.!{TEA: !<boolean>, COFFEE:}.?(int) }
protocol serve { begin.?{TEA: ?(boolean), COFFEE:, CAKE: ?(String)}.!<int> }
protocol short { begin.!{COFFEE:}.?(int) }
protocol hands { begin.!<!{COFFEE:}.?(int)> }
protocol gets { begin.?(!{COFFEE:}.?(int)) }

party guest { delegate z x; close z; }

party friend {
  recv u s session short;
  outbranch s COFFEE;
  recv s price int;
  close s;
  close u;
}

party cafe {
  // There is an arm for each label that the cafe's protocol offers, whoever selects.
  inbranch y {
    TEA: { recv y milk boolean; let price = 2; }
    COFFEE: { let price = 4; }
    CAKE: { recv y fruit String; let price = 6; }
  }
  send y price;
  close y;
}

connect guest x order to cafe y serve;
connect guest z hands to friend u gets;
