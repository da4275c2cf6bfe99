main() ;
n 5;   /* the end */