main() {
    int v[3] = {1, 2, 5}, n = 4;
    printn(v[0] + v[1] + v[2] + n, 10);
}
