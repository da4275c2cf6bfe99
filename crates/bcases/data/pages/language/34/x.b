fact(n) return(n ? n * fact(n - 1) : 1);
main() printn(fact(7), 10);
