f() { auto a; a = 7; }
g() { auto b; return(b); }
main() { f(); printn(g(), 10); }
