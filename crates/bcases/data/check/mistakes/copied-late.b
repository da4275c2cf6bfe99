main() {
    auto a, b, c, t;
    a = getchar();
    b = getchar();
    t = a;
    b = t;
    a = b;
    c = a + b;
    b = c;
    a = b;
    putchar(a);
    a = b;
    t = a;
    b = t;
    putchar(b);
}
