main() {
    auto c, sum, all;
    sum = all = 0;
    c = getchar();
    while(c >= '0' & c <= '9') {
        sum =+ c;
        all =+ c - '0';
        c = getchar();
    }
    printn(sum, 10);
    printn(all, 10);
}
