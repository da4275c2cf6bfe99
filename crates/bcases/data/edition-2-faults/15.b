f() { goto
break; }