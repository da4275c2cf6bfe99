main() {
    auto s, i;
    s = "abc";
    i = 0;
    while(s[i]) i++;
    printn(i, 10);
}
