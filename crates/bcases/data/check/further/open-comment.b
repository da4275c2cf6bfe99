main() {
    x = 1;
}

f(a) {
    b = a;
    /* the sum
    return(b);
}

g() {
    y = 2;
}
