main() ;
f() ;
