main() {
    if(digit(getchar()) == -1)
        putchar('n');
}
digit(c) {
    return(c >= '0' & c <= '9' ? c - '0' : -1);
}
