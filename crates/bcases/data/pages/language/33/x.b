f(a, b) return(b);
main() { printn(f(1), 10); printn(f(1, 2, 3), 10); }
