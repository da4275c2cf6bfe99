f(x) return x;
