f() { while(1) ; switch 1 { }
break; }