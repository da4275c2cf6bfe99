5 n;
main() ;
