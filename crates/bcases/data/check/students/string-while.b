main() {
    auto i, s;
    s = "hello";
    i = 0;
    while(char(s, i))
        i++;
    printn(i, 10);
}
