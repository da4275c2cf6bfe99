next(n) {
    auto m;
    m = n + 1;
    return(&m);
}

main() printn(*next(3), 10);
