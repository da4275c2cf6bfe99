/* A comparison that binds otherwise than it looks. */
first(n, mask) {
    if(n & mask == 0) /* told */
        return(1);
    return(n & 7 != 0); /* told */
}
second(v, i) {
    if(v[i] | v[i + 1] > 5) /* missed */
        return(1);
    while(v[i] & 1 << i == 2) /* told */
        i++;
    return(i);
}
third(a, b) {
    if(!a == b) /* told */
        return(0);
    if(!f(a) < 3) /* told */
        return(1);
    if(!(a) > b) /* told */
        return(2);
    return(3);
}
fourth(c) {
    return(f(c & 15 == 3)); /* told */
}
fifth(a, b) {
on: if(flags(a) & 4 == 4) putchar('4'); /* told */
    b = a | b == 3; /* told */
    if(a)
        if(b /* told */
           & 3
           == 1)
            putchar('x');
}
sixth(x) {
    printn(x & f(x) != 4 ? 1 : 0, 10); /* told */
    if(!x[0] == 'a') /* told */
        putchar('a');
    if(-x & 1 == 1) /* told */
        putchar('o');
}
f(a) return(a + 1);
flags(a) return(a | 4);
main() {
    auto v 3;
    v[0] = v[1] = v[2] = v[3] = 0;
    first(1, 2); second(v, 1); third(1, 2); fourth(3); fifth(3, 4); sixth(v);
}
