main() {
    auto s, i;

    s = "hello";
    i = 0;
    while(char(s, i) != NULL)
        i++;
    printn(i, 10);
}
