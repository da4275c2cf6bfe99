main() {
    auto n;
    switch getchar() {
        case 'a': n = 1; break;
        default: n = 2;
    }
    printn(n, 10);
}
