main() {
    printn(countr, 10);
}
f() {
    auto countx;
    countx = 1;
}
counter 5;
