main() {
    auto x;
    x += 2;
    x<<=1;
    x /=*&x;
}
