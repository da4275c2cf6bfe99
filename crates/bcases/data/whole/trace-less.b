main() {
    auto n;
    n = 2;
    while(n) {
        if(n == 1)
            break;
        n = less(n);
    }
    putchar(at(n));
}
word 97, 98;
at(i) {
    extrn word;
    auto p;
    p = &word;
    return(p[i]);
}
