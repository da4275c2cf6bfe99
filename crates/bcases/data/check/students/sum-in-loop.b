main() {
    auto i, sum;
    i = 1;
    while(i <= 10) {
        sum = sum + i;
        i++;
    }
    printn(sum, 10);
}
