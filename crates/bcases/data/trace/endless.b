main() while(1) ;
