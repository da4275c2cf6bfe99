main() if(f() && f() && f() | 2) f();
f() return(1);
