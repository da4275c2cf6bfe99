f(int a, int b) return(a + b);
main() printn(f(1, 2), 10);
