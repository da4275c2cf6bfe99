main() {
    auto square, f;
    square = 5;
    printn(square(3), 10);
    f = square * 2;
    printn(f(3), 10);
}
