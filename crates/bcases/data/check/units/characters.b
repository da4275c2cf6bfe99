/* é€😀 */ main() { return(x); }
