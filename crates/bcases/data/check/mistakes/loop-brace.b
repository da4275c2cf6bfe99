main() {
    auto n;
    n = 3;
    loop {
        n--;
    }
}
