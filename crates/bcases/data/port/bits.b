main() {
    auto a, b;
    a = ~b & 3;
    b = a ^ 0xff;
    a = f() ^ b;
    return(~-a);
}
f() ;
