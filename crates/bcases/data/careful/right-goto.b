main() {
    auto n, v 1;
    n = 0;
  again:
    v[n] = n;
    if(n++ < 1) goto again;
    printn(v[0] + v[1], 10);
}
