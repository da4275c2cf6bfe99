f(x) return(x);
main() { auto g, c; g = f; for(;;) { printn((*g)(1)); c = getchar(); if(c == 0) exit(); } }
