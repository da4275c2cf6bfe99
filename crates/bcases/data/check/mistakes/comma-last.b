f(a, b,) ;
