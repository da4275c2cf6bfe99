length(s) {
    auto i, c;
    i = 0;
    while((c = s[i]) != '*e')
        i++;
    return(i);
}
vowels(s) {
    auto i, n;
    i = n = 0;
    while('*e' != s[i]) {
        if(s[i] == 'a')
            n++;
        i++;
    }
    return(n);
}
has(s, c) {
    auto i;
    i = 0;
    while(char(s, i) != '*e')
        if(c == s[i++])
            return(1);
    return(0);
}
main() {
    auto t;
    t = "banana";
    printn(length("abc"), 10);
    printn(vowels(t), 10);
    printn(has("abc", 'b'), 10);
}
