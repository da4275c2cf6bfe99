p(x) { putchar(x); return(x); }
main() p('a') - p('b');
