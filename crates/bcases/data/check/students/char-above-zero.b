main() {
    auto s, i;
    s = "abc";
    i = 0;
    while(char(s, i) > 0) i++;
    printn(i, 10);
}
