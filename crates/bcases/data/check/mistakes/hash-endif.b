#endif X
main() ;
