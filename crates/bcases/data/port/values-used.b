int n = 5;
main() { int x = n; printn(x, 10); }
