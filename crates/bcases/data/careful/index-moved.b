main() {
    auto v 3;
    v[0] = v[1] = v[2] = v[3] = 1;
    v = v + 1;
    printn(v[2], 10);
    v =+ 1;
    printn(v[2], 10);
}
