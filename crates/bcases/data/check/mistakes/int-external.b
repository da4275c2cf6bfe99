int n = 5;
main() ;
