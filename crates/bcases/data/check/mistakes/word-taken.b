main() {
    auto s, t 4, i, c, n;
    s = "abc";
    i = n = 0;
    while(i < 2) {
        c = s[i];
        if(c == 'a')
            n++;
        t[i] = s[i];
        i++;
    }
    printn(n, 10);
    printn(t[0], 8);
}
