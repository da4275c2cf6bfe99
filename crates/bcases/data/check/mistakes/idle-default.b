main() {
    auto x;
    x = getchar();
    switch x {
        case 1:
        default:
            5;
    }
}
