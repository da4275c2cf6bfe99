main() {
    auto i, p;
    i = 5;
    while(i > 1)
        p =* i--;
    printn(p, 10);
}
