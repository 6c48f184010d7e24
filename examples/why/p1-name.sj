party { }
