/* Numbers that fit, and words with all bits. */
first(n) {
    if(n > 32767 - 1)
        return(1);
    if(n == 65535)
        return(2);
    return(n < -5 | n >= -1);
}
second(v, i) {
    if(find(v, i) == -1)
        return(0);
    if((v[i] & 32768) != 0)
        return(1);
    return(v[i] != 0177777);
}
third(a) {
    while(a-- > -3)
        putchar('a' + (a & 1));
    if(1000 < a)
        return(1);
    return(a <= 32767);
}
find(v, i) return(v[i] < 0 ? -1 : i);
main() {
    auto v 2;
    v[0] = v[1] = v[2] = 0;
    first(1); second(v, 0); third(2);
}
