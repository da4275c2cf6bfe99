main() {
    auto n;
    if(getchar() == 4)
        n = 1;
    else
        n = 2;
    printn(n, 10);
}
