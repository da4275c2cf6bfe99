twice(auto n) {
    return(2 * n);
}
main() printn(twice(7), 10);
