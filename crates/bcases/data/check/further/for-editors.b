main() {
    i = 0;
}

f(v) {
    v[0] = j;
}
