main() {
    auto i;
    i = 0;
    while(i < 3) {
        i++;
        if(i == 2) {
            putchar('2');
    }
}
next(n) {
    return(n + 1);
}
