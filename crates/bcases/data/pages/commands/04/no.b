main() { printn(n, 10); } n 42;
