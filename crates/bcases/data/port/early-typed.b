main() {
    int x;
    x = 16;
    x=-3;
    x =>> 1;
    printn(x, 10);
}
