/* What a function does to its own words is gone with it. */
main() {
    auto a, b;
    a = 1;
    b = 2;
    swap(a, b);
    add(a, b);
    inc(a);
    clamp(a);
    larger(a, b, 0);
    half(a, 0);
    store(&a, b);
    count(b);
    show(a);
    printn(twice(a), 10);
}
swap(a, b) {
    auto t;
    t = a;
    a = b;
    b = t;
}
add(sum, x) sum =+ x;
inc(n)
    n++;
clamp(n) {
    if(n > 9)
        n = 9;
    else
        --n;
}
larger(a, b, m) {
    if(a > b)
        m = a;
    else
        m = b;
}
half(n, r) {
    while(n > 1) {
        n = n - 2;
        r++;
    }
}
store(p, x) *p = x;
total;
count(x) {
    extrn total;
    total =+ x;
}
show(n) {
    n =+ 1;
    printn(n, 10);
}
twice(n) {
    n = n * 2;
    return(n);
}
