main() {
    char c;
    char b;
    c = getchar();
    b = 100;
    b = b + 100;
    printn(b & c, 10);
}
