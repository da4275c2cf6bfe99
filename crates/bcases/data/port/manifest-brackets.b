manifest $( a = 1; b = 2 $)
main() $( putchar('0' + a + b); $)
