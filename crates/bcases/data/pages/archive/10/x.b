main() { auto i; i = 1; i += 2; printn(i, 10); }
