f(x) { x; f; }
