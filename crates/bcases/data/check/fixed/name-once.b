main() {
    auto total, i;

    total = i = 0;
    while(i < 10) {
        totl = total + i;
        i++;
    }
    total = total + 1;
    printn(total, 10);
}
