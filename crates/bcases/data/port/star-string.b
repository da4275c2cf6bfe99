row(n) { while(n-- > 0) f("*"); f("\n"); }
main() row(3);
f() ;
