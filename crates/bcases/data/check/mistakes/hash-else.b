#else X
main() ;
