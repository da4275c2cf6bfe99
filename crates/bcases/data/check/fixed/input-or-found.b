main() {
    auto c;

    while((c = getchar()) != '*e')
        putchar(c);
    c = find(5);
    if(c == -1)
        putchar('n');
}

find(n) {
    return(n > 3 ? -1 : n);
}
