main() {
    auto n;
    n = 1;
    while(n < 40000)
        n =* 2;
}
