main() printn(half(0 - 6), 10);
half(d) return(d >> 1);
