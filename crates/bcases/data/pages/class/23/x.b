main() {
    auto i;
    i = 1;
    while(i <= 3)
        printn(i, 10);
        i++;
}
