main() {
    { auto a; a = 5; }
    printn(a, 10);
}
