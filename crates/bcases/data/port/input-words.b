main() {
    auto c, d;
    while((c = getchar()) >= 0) if(c != -1) putchar(c);
    for(d = getchar(); d != -1; d = getchar()) ;
    find(c);
}
find(c) {
    c = c - 3;
    if(c < 0) putchar('l');
    if(c >= 0) putchar('g');
}
mixed() {
    auto c;
    c = getchar();
    c = c - 'm';
    if(c < 0) putchar('-');
    return c;
}
