f(x) { auto a, b; a = x; f(a); }
