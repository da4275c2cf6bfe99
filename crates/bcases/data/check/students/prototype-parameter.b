twice(int n);
main() {
    printn(twice(4), 10);
}
twice(n)
    return(2 * n);
