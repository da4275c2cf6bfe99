main() { auto a; a = &x; }
