main() {
    auto i, v 4;
    i = 6;
    v[i % 4] = i / 2 ^ i % 4;
    i ^= i % 4;
    printn(v[2] ^ v[6 % 4], 10);
}
