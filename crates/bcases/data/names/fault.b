main() { f(@); }
f(a) a;
