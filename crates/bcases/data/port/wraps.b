main() { auto a, b; a = 40000; b = a; for(;a;) a = a * b; }
