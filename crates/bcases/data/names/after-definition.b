g() { f(a); }
auto a;
