main() { auto i; for(i = 0; i < 3 && f(i); i++) ; }
f(i) return(i);
