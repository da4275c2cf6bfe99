main() { return(x); }
