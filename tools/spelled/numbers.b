/* A comparison that words of 16 bits, or characters, never or always meet. */
first(n) {
    if(n > 40000) /* told */
        return(1);
    while(n < 65535) /* told */
        n++;
    return(0);
}
second(v, i) {
    if(v[i] >= 32768) /* told */
        return(1);
    return(50000 < v[i + 1]); /* told */
}
third(s) {
    if(getchar() == -1) /* told */
        return(1);
    if(char(s, 0) < 0) /* missed */
        return(2);
    auto c;
    while((c = getchar()) != -1) /* told */
        putchar(c);
}
fourth(a) {
    if(a > 1) if(f(a) <= 60000) /* told */
        return(1);
top: if((a + 1) > 0177777) goto top; /* told */
    if(char(s(a), /* told */
            1) == -1)
        return(3);
}
f(n) return(n);
s(n) return("ab");
main() {
    auto v 2;
    v[0] = v[1] = v[2] = 0;
    first(1); second(v, 0); third("a"); fourth(2);
}
