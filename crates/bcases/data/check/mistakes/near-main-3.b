Main() ;
n() ;
