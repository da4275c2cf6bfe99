main() {
    auto i;
    i = 0;
    while(i < 3);
        printn(i++, 10);
}
