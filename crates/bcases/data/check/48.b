f(x, y) while(x===y) g(); g() ;
