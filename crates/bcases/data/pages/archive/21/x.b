main() while(1) { putchar('r'); exit(); }
