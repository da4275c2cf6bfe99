main() {
    auto n;
    n = 5;
    while(n > 3):
        n--;
}
