f() { break;
1 = 2; }