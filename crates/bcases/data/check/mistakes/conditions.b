main() {
    auto x, y;
    x = y = 1;
    if(x = 1)
        y = 2;
    while(x = y)
        y = 0;
    if(x === y)
        y = 1;
    if(x =!= y)
        y = 1;
    if(x =< y)
        y = 1;
    if(x =<= y)
        y = 1;
    if(x => y)
        y = 1;
    if(x =>= y)
        y = 1;
    if(x =- 1)
        y = 1;
    if(x = y == 2)
        y = 1;
    if(x = y != 2)
        y = 1;
    if(x = f() < 2)
        y = 1;
    if(x = f() <= 2)
        y = 1;
    if(x = f() > 2)
        y = 1;
    if(x = f() >= 2)
        y = 1;
}
f() {
    return(1);
}
