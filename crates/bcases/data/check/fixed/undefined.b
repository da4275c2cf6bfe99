main() {
    first();
    second();
    third();
}
