main() {
    adjacent(2);
    out(2);
    conds(2);
    parts(2);
    after(2);
    beyond(2);
    joined(2);
    apart(2);
    chooses(2);
}
adjacent(a) {
    auto x;
    while(a--)
        putchar('a');
    while(a++ < 3) {
        if(a)
            printn(x, 10);
        x = 1;
    }
}
out(a) {
    auto x;
    while(a--)
        putchar('a');
    goto end;
    printn(x, 10);
end:
    printn(x, 10);
}
conds(a) {
    auto x, y;
    if(a)
        while(a < x)
            x = a--;
    while(a--) {
        if(a == y)
            putchar('a');
        y = 1;
    }
}
parts(a) {
    auto x;
    while(a--) {
        if(a)
            x++;
        x = 1;
    }
}
after(a) {
    auto x;
    while(a--) {
        if(a)
            putchar('a');
        x++;
        x = 1;
    }
}
beyond(a) {
    auto x;
    if(a) {
        while(a--)
            putchar('a');
        x++;
    }
    x = 1;
}
joined(a) {
    auto x, y, z;
    x=-1;
    y=*a;
    z=&a;
    printn(x + y + z, 10);
}
apart(a) {
    auto x, y, z;
    x =- 1;
    y =* a;
    z =& a;
    printn(x + y + z, 10);
}
chooses(a) {
    auto x, y;
    while(a--) {
        switch x {
            case 1:
                printn(y, 10);
        }
        x = y = a;
    }
}
