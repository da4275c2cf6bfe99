main() {
    asked(2);
    never(2);
    first(2);
    after(2);
    adds(2);
    stores(2);
    and(2);
    leaves(2);
    ends(2);
    twice(2);
}
asked(a) {
    auto x, y;
    printn(a ? x : 1, 10);
    printn(y, 10);
}
never(a) {
    auto x;
    while(a--) {
        if(a == 0)
            printn(x, 10);
    }
}
first(a) {
    auto x;
    while(a--) {
        printn(x, 10);
        x = 1;
    }
}
after(a) {
    auto x;
    while(a--) {
        if(a)
            putchar('a');
        printn(x, 10);
        x = 1;
    }
}
adds(a) {
    auto x, y;
    x =+ a;
    y++;
    printn(x + y, 10);
}
stores(a) {
    auto x;
    *x = a;
}
and(a) {
    auto x, y;
    printn(a & x, 10);
    printn(y, 10);
}
leaves(a) {
    auto x, y;
    while(a--) {
        printn(x, 10);
        if(a == 1)
            goto out;
    }
    printn(y, 10);
out:
    ;
}
ends(a) {
    auto x, y;
    printn(x + a, 10);
on:
    printn(y, 10);
    if(y)
        goto on;
}
twice(a) {
    auto x;
    printn(x, 10);
    printn(x + a, 10);
}
