main() if(1 > 2 || 2 > 1) putchar('y');
