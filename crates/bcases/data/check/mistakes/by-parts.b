main() {
    auto c, i;
    c = getchar();
    if(c == 'a' | 'e')
        putchar(c);
    printn("a" + "b", 10);
    i = 0;
    i = i++;
    down(i);
    sum(i) + sum(c);
    while(1)
        i++;
}
down(n) {
    if(n > 0)
        down(n--);
}
sum(n) {
    return(n + 1);
}
