main() {
    auto n;
    n = 32767;
    return(n + 1);
}
