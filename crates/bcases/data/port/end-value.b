#define EOF (-1)
main() {
    auto x, c;
    while((x = digit()) != EOF) printn(x, 10);
    c = getchar();
    switch(c) { case EOF: c = EOF; }
}
digit() {
    auto c;
    if((c = getchar()) == EOF) return EOF;
    return c - '0';
}
