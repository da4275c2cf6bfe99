main() {
    foreach(x in "abc") putchar(x);
}
