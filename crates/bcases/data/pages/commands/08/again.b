main() {
    auto i;
    i = 1;
    while(i < 10)
        printn(i, 10);
        i++;
}
