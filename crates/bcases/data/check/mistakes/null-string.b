main() {
    auto s, i, c;

    s = "hello";
    i = 0;
    while(char(s, i) != NULL)
        i++;
    while((c = char(s, i)) == null)
        i++;
    printn(i + c, 10);
}
