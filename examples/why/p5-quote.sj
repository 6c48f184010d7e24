party a { send x "abc
