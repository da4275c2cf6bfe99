main() {
    auto p;
    p = "abc";
    printn(same("ab", p, 1), 10);
    putchar("0123456789"[7]);
    putchar(*"x");
    putchar(p + 1);
}

same(s, t, n) {
    if(s[0] != t[0])
        n = 0;
    return(first(t) + n);
}

first(s) return(*s);
