main() {
    auto n;
    n = 0;
    while(++n > 0) ;
    printn(n - 1, 10);
}
