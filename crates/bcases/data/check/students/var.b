main() {
    var i;
    i = 3;
    printn(i, 10);
}
