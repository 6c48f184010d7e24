party a { send x 05; }
