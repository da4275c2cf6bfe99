v[2] = 1;
main() ;
