mian() ;
