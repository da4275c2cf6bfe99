// A modern source.
main() { f("2*n is **bold** x\n", '*'); return 0; }
f() ;
