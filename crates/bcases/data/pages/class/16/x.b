main() {
    auto i;
    while(i < 3)
        printn(i++, 10);
}
