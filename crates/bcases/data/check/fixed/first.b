main() {
    twice(3)
    twice(4);
}
