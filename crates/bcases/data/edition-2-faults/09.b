f() { 1 = 2;
break; }