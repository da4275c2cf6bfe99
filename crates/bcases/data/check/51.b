f(x) if(x == "a") g(); g() ;
