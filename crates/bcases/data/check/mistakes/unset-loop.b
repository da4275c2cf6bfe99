main() {
    auto i, s;
    s = 0;
    while(i < 10) {
        s =+ i;
        i++;
    }
    printn(s, 10);
}
