main() {
    auto count;
    count = 0;
    more();
}
more() {
    count = count + 1;
}
