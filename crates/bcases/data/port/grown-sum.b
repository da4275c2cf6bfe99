v[2] 5, 6, 7;
main() {
    extrn v;
    auto s, i;
    s = 0;
    i = 3;
    while(i--)
        s = s + v[i];
    printn(s, 10);
}
