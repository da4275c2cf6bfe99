main() {
    auto i;
    i = 500;
    while(1)
        printn(1000 / i--, 10);
}
