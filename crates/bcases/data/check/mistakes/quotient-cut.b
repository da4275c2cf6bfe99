main() {
    auto c, f;
    c = 0;
    while(c <= 100) {
        f = 9 / 5 * c + 32;
        printn(f, 10);
        f = c * (9 / 5) + 32;
        printn(f, 10);
        f = 10 / 5 * c + 32;
        printn(f, 10);
        f = 9 * c / 5 + 32;
        printn(f, 10);
        c =+ 10;
    }
    printn(7 / 2 * 2 + 7 % 2, 10);
    printn(7 / 2, 10);
    printn('i' / 10 * c, 10);
}
