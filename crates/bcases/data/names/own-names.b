f(a) a;
a(f) { auto x; x = f; }
x[2] a, x;
main() { x[0] = a(f(1)); }
