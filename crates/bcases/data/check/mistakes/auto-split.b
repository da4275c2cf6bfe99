main() {
    auto i, sum; n;

    n = 5;
    sum = i = 0;
    while(i < n)
        sum =+ i++;
    printn(sum, 10);
}
