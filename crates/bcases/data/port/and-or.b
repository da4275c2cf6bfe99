main() {
    auto a, b;
    if(a == 1 && b == 2 || !a) b = 1;
    a = f() && b;
    while(f() || a < 2 && f()) a = b || f() == 1;
    return(f() && f());
}
f() return(1);
