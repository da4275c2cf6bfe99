main() {
    auto v 2, w 2, i;
    i = 0;
    while(i < 3) {
        v[i] = i;
        w[i] = v[i] * 2;
        i++;
    }
    while(i--) printn(w[i], 10);
    exit(3);
}
