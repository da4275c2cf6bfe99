main() {
    auto i, sum;
    i = 0;
    while(i < 10) {
        if(i == 0)
            sum = 0;
        sum = sum + i++;
    }
    printn(sum, 10);
}
