#undef X
main() ;
