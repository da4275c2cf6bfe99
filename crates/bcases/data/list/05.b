main() { auto n; n = 1; n = n + 1; n = n + 22; }
