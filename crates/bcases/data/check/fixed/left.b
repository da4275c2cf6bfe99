main() {
    auto n
    n = 2;
    case 1: printn(n, 10);
}
