n;
main() {
    extrn n;
    printn(n + up(), 10);
    printn(up() - twice(), 10);
    put(n, up());
    n = up();
    put(up(), 3);
    put(same(2), n);
}

up() {
    extrn n;
    return(n =+ 1);
}

twice() {
    extrn n;
    n = 2 & up();
    return(n);
}

put(a, b) printn(a - b, 10);

same(x) return(x);
