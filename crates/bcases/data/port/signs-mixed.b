main() {
    auto x;
    x = 3;
    x =- 1;
    x += 2;
    x =+ 1;
    printn(x, 10);
}
