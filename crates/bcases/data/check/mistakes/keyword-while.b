main() {
    auto i;
    i = 0;
    While(i < 5)
        i++;
    printn(i, 10);
}
