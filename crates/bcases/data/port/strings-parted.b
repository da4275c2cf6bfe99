main() {
    putstr("one \
two");
    putstr("three");
}
