main() {
    auto count, i;
    i = 5;
    while(i > 0) {
        count++;
        i--;
    }
    printn(count, 10);
}
