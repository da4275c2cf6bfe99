turn(v, n) {
    auto i;

    i = 0;
    while(i < n) {
        v[i] = 0;
        i++;
}

main() {
    auto w 4;

    turn(w, 5);
    printn(w[0], 10);
}
