f(x) { x = x ? x : x; g(x); goto x1; x1: return(x); } g(x) ;
