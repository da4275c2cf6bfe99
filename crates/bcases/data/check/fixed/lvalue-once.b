main() {
    auto a, b;

    aa = getchar() - '0';
    b = a + 1;
    printn(b, 10);
}
