main() {
    auto c, n;

    n = 0;
    c = getchar();
    while(c >= '0' & c =< '9') {
        n = n * 10 + c - '0';
        c = getchar();
    }
    printn(n, 10);
}
