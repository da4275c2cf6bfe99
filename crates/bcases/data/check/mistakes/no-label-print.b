main() {
    auto n;
    n = 3;
again:
    printn(n--, 10);
    if(n)
        goto again;
    goto print;
}
