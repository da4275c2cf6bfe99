v[3] 5, 6, 7, 8;
last 9;
main() {
    extrn v;
    auto i;
    i = 0;
    while(v[i]) printn(v[i++], 10);
}
