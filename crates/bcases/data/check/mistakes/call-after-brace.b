main() {
    auto n;
    n = 3;
    while(n) {
        n--;
    }
done: printn n, 10;
}
