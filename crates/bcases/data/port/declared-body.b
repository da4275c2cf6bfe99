v[2] 1, 2, 3;
show(i) extrn v; return v[i];
main() extrn v; printn(v[1] + show(2), 10);
