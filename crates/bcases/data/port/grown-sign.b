main() {
    auto n, i;
    n = 1;
    i = 0;
    while((n=<<1) > 0)
        i++;
    printn(i, 10);
}
