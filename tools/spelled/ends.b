/* Input's end tested wrongly. */
first() {
    auto c;
    while((c = getchar()) != 0) /* told */
        putchar(c);
}
second() {
    auto c;
    while(c = getchar()) /* told */
        putchar(c);
}
third() {
    auto c, n;
    n = 0;
    c = getchar();
    while(c > 0) { /* told */
        n++;
        c = getchar();
    }
    return(n);
}
fourth(v) {
    auto i;
    i = 0;
    while((v[i] = getchar()) != '*0') /* told */
        i++;
    return(i);
}
fifth() {
    auto c;
    while((c = getchar() != '*e')) /* told */
        putchar(c);
}
sixth() {
    auto c;
    while(1) {
        c = getchar();
        if(c == -1 | c == 0) /* told */
            return;
        putchar(c);
    }
}
seventh(c) {
    while(c != 'e') { /* told */
        c = getchar();
        putchar(c);
    }
}
main() {
    auto v 20;
    first(); second(); third(); fourth(v); fifth(); sixth(); seventh(0);
}
