/* ++ that does what it says. */
first(v, i) {
    v[i] = i++;
    i = v[i++];
    i =+ i++;
    return(i);
}
second(a, b) {
    a = b++;
    b = ++b;
    a = a + 1;
    return(second1(a, --b));
}
second1(a, n) {
    if(n > 0)
        return(second1(a, n - 1));
    return(a);
}
third(s, t, i) {
    auto j;
    j = i++;
    other(i--);
    *s++ = *t++;
    return(j);
}
other(n) return(n);
main() {
    auto v 9, w 9, i;
    i = 0;
    while(i < 10) { v[i] = 0; w[i] = 1; i++; }
    first(v, 1); second(1, 2); third(v, w, 2);
}
