f() ;
/* opened
