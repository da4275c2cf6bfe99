a[3] 1, 2, 3, 4;
b[3];
main() {
    extrn a, b;
    auto x, y, z, t, own 3, turn;
    x = getchar();
    y = getchar();
    t = x;
    x = y;
    y = t;
    z = x + y;
    x = y;
    y = z;
    printn(z % x, 10);
    t = a;
    a = b;
    b = t;
    own[0] = a[0];
    turn = own;
    printn(turn[0] + y, 10);
}
