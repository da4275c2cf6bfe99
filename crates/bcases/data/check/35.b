f() { goto default; }
