main() ;


/* the last line