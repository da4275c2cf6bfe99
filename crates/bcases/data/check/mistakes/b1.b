main() {
    auto x, s;
    x = 1;
    s = "ab";
    while(x)
        break;
}
