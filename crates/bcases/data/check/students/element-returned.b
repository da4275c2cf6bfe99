three() {
    auto v 2;
    v[0] = v[1] = v[2] = 3;
    return(&v[0]);
}

main() printn(*three(), 10);
