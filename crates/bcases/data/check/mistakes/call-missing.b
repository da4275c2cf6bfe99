main() {
    auto x;

    x = getint;
    printn(x, 10);
}
getint() {
    return(getchar() - '0');
}
