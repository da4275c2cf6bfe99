maine(n) return(n);
main() printn(maine(5), 10);
