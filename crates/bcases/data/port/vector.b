main() { auto v[10], i, w[3]; v[10] = w; }
