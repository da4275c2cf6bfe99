/* Comparisons joined, and parentheses. */
first(n, mask) {
    if((n & mask) == 0)
        return(1);
    return(n == 1 & mask != 0 | n < mask);
}
second(v, i) {
    auto found;
    found = 0;
    while(!found & v[i] != 0)
        found = v[i++] == 5;
    return(!(i == 3) & !found);
}
third(a, b) {
    if(!a & b == 3)
        return(0);
    if(isdigit(a) & b == 1 | !isdigit(b) & a > 2)
        return(1);
    return(a == !b);
}
isdigit(c) return(c >= '0' & c <= '9');
main() {
    auto v 3;
    v[0] = 1; v[1] = 5; v[2] = 0; v[3] = 0;
    first(1, 2); second(v, 0); third(1, 2);
}
