f() {
    extrn n;
    while(f() == "ab")
        f(1,
            n);
    f();
    n = 1; m();
}
