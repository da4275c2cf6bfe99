f(a, a) ;
