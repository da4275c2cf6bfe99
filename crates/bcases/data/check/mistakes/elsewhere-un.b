main() {
    auto count;
    count = 1;
    show();
}
show() {
    printn(count, 10);
}
