main() {
    auto i;
    i = 1;
    while(i <= 5) printn(i++);
}
