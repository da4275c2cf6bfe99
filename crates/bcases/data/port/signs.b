main() { auto x; for(x = 3; x > 0; x--) ; x=-1; printn(x, 10); }
