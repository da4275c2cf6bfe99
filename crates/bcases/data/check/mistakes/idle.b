main() {
    auto x;
    x = 1;
    !x;
    (x);
    *x;
    -x;
    &x;
    1;
    x + 1;
    x == 1;
    x != 1;
    x < 1;
    x == f();
    x ? 1 : 2;
    on: x;
    if(x)
        x;
    else
        x + 1;
    while(x)
        x;
    {
        x;
    }
    x;
    switch x {
        case 1:
            x;
    }
    goto on;
}
f() {
    return(1);
}
