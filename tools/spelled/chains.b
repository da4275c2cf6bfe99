/* A chain of comparisons. */
first(v, n) {
    if(0 <= n < 10) /* told */
        return(v[n]);
    while(v[0] < v[n] < v[1]) /* told */
        n++;
    return(0);
}
second(c) {
    if('a' <= c
          <= 'z') /* told */
        return(1);
    return(1 < f(c) <= 3); /* told */
}
third(a, b, c) {
    if(a == b == c) /* told */
        return(1);
    if(c > b > a) return(2); /* told */
    f(a < b < c); /* told */
    return(a != b != c); /* told */
}
fourth(a) {
loop: if(a) if(10 > a >= 5) a++; else a--; /* told */
    if(a > 1) goto loop;
    a = 1 < a + 2 < 9; /* told */
}
f(n) return(n);
main() {
    auto v 2;
    v[0] = 0; v[1] = 3; v[2] = 1;
    first(v, 1); second('c'); third(1, 1, 1); fourth(2);
}
