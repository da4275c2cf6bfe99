main() {
    auto n;
    n = 3;
    while(n == = 3)
        n++;
}
