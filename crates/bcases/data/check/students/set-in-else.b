main() {
    auto i, last;
    i = 0;
    while(i < 10) {
        if(i > 0)
            putchar(last);
        else
            putchar(' ');
        last = 'a' + i++;
    }
}
