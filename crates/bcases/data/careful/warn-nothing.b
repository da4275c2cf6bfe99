main() {
    auto i;
    i = 40;
    while(i < 44)
        printn(i++ * 1000, 10);
}
