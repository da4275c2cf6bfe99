/* Or of comparisons, and bits. */
first(c) {
    if(c == 'a' | c == 'e' | c == 'i')
        return(1);
    return((c | 32) == 'x');
}
second(v, i) {
    v[i] = v[i] | 2;
    if((v[i] & 3) == 1 | v[i] > 7)
        return(v[i] | 4);
    return(f(v[i] | 1) == 3);
}
third(c, flag) {
    flag = c == 'a' | flag;
    return((c == 'b') * 4 | (c == 'c') * 2 | 1);
}
f(c) return(c);
main() {
    auto v 2;
    v[0] = v[1] = v[2] = 0;
    first('a'); second(v, 0); third('a', 0);
}
