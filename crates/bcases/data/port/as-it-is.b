main() { auto x; x=-1; putchar('\n'); return(x); }
