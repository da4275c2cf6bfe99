n; m 5; v[3]; f() { auto a; a = 1; }
