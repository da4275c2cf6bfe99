main() {
    auto s, i;
    s = i = 0;
    while(i++ < 300)
        s =+ i;
    printn(s, 10);
}
