main() {
    auto i, sum, n;
    i = 1;
    while(i <= 10) {
        sum = 0;
        sum = sum + i;
        n = 0;
        n =+ i;
        printn(n, 10);
        i++;
    }
    printn(sum, 10);
    i = 0;
    while(i < 3) {
        sum = 1;
        n = 0;
        while(n < i)
            sum =* ++n;
        i++;
    }
    printn(sum, 10);
}
