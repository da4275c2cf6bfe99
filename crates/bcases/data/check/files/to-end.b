main() ;
/* the end
