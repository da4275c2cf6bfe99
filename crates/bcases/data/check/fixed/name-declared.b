main() {
    auto totl, i;

    total = i = 0;
    while(i < 10) {
        total = total + i;
        i++;
    }
    printn(total, 10);
}
