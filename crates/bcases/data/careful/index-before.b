main() {
    auto x, v 2, i;
    x = 7;
    i = 2;
    while(i >= 0) v[i--] = i;
    printn(v[i], 10);
}
