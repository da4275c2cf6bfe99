main() {
    auto h, c;
    h = 0;
    while((c = getchar()) != '*e')
        h = (h * 31 + c) % 1000;
    printn(h, 10);
}
