main() {
    auto s, t, n;
    s = "ab";
    t = s + 1;
    s++;
    s =+ 1;
    n = 1;
    n++;
    s[0] = 'c';
    if(s[0] < t[0]) putchar('l');
}
