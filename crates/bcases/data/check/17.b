main() { auto x; }
