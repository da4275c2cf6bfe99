f(n) { return(n ? f : 0); }
main() printn(f(1), 10);
