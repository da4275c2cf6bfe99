main() {
    loops(2);
    parts(2);
    asks(2);
    colon(2);
}
loops(a) {
    auto b, x;
    b = a;
    while(b--)
        putchar('b');
    while(a--) {
        if(a == 0)
            printn(x, 10);
        x = 1;
    }
}
parts(a) {
    auto x;
    while(a--) {
        if(a == 1)
            putchar('a');
        switch a {
            case 0:
                printn(x, 10);
        }
        x = 1;
    }
}
asks(a) {
    auto b, x;
    while(a--) {
        if(a == 1)
            putchar('a');
        b = a ? 1 : x;
        x = b;
    }
}
colon(a) {
    auto x;
    a = a ? (x = 1) : 2;
    printn(a + x, 10);
}
