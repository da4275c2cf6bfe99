main() {
    auto i;
    i = 0;
    while(1) i++;
}
