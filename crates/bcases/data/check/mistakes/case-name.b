main() {
    auto n;
    n = 1;
    switch 1 {
    case n: putchar('a');
    }
}
