main() {
    auto x, y; y = 2;
    if(x = -(y) < 1) y = 1;
    if(x = abs(y) < 1) y = 1;
    return(x + y);
}
abs(n) {
    if(n < 0) return(-n);
    return(n);
}
