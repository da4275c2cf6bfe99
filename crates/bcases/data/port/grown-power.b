power(n) return(n ? 2 * power(n - 1) : 1);
main() printn(power(20), 10);
