main() {
    auto n;
    n = 2;
    }
    putchar(next(n));
}
next(n) {
    return(n + 1);
}
