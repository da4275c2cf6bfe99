length(s) {
    auto n;
    n = 0;
    while(*s++ != '*e') n =+ 1;
    return(n);
}

main() {
    auto t, v 3;
    t = "ab";
    if(t[0] == 'a') putchar('a');
    while(*t) t =+ 1;
    if((v[0] = t[0]) == 'a') putchar('b');
    v[1] = 'c';
    if(v[1] == 'c' & t[0] == v[0]) putchar(*t);
    printn(length("ab"), 10);
    t = "ab" + 1;
}
