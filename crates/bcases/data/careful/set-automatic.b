main() {
    auto sum, i;
    i = 0;
    while(i < 3) {
        sum = sum + i;
        i++;
    }
    printn(sum, 10);
}
