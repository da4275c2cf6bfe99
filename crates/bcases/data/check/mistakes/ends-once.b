main() {
    again();
    input();
    string("abc");
}
again() {
    auto c;
    c = getchar();
    while(c) {
        if(c == getchar())
            putchar(c);
        c = getchar();
    }
}
input() {
    auto c;
    c = getchar();
    while(c) {
        putchar('.');
        c--;
    }
}
string(s) {
    auto c;
    c = char(s, 0);
    while(c) {
        putchar('.');
        c--;
    }
}
