main() ;
