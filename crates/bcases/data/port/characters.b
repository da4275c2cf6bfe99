main() {
    if(1) putchar('hello*n');
    putchar('abc');
    if('abc' == 1) return;
}
