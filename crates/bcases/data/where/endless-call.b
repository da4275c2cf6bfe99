/* the limit comes in twice, and the loop is in main */
main() {
    auto i;
    i = 1;
    while(i < 100)
        putchar(twice(i) + '0');
    i =+ 1;
}
twice(n) {
    return(n + n);
}
