main() while(getchar() != '.') ;
