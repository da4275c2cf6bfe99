main() {
    Auto i;
    i = 5;
    printn(i, 10);
}
