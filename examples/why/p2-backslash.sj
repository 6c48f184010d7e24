party a { send x "a\b"; }
