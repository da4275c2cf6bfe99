main() {
    auto a, b;
    a = 1;
    b = 9;
    while(a =< b)
        a =+ 2;
}
