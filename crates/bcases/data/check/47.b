f(x, y) if(x=y) g(); g() ;
