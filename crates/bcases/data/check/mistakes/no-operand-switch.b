main() {
    auto n;
    n = 3;
    switch ; {
        case 1:
            putchar('a');
    }
}
