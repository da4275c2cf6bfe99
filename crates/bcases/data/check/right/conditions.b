main() {
    auto x, y;
    x = y = 1;
    if((x = 1))
        y = 2;
    if(x = y + 1)
        y = 1;
    if(x = f(1))
        y = 1;
    if(x = y < 2)
        y = 1;
    if((x = f(1)) < 2)
        y = 1;
    if(f(x = 1))
        y = 1;
    if(x == y & f(1) < 2)
        y = 1;
    if(x)
        ;
    else
        y = 1;
    while(1)
        ;
}
f(a) {
    return(a);
}
