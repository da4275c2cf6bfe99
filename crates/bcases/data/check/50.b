f() { auto v 5; v[6] = 1; }
