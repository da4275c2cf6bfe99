main() {
    auto i;
    for(i = 0; i < 3; i++)
        printn(i, 10);
}
