until(x) { return(x + 1); }
main() { auto i; i = until(3); until(i > 9) i++; }
