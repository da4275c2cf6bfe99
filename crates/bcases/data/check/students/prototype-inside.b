main() {
    int twice();
    printn(twice(4), 10);
}

twice(n) return(2 * n);
