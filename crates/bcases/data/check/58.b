f(x, y) { if((x = y)) g(); while(x = g()) g(); if(x = y / 2) g(); if(x == y) g(); if(h(x = y)) g(); return(x); } g() return(0); h(x) return(x);
