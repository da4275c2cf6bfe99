main() {
    auto x;
    x = 1;
    if(x);
    if(1);
    if(x++);
    while(x);
    while(x == 2);
    while(x + 1);
    while(x++);
    while(f());
    while(x = f());
    while(--x);
    while(0);
    while('a');
}
f() {
    return(1);
}
