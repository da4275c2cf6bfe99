f[2] sq, 0;
main() { extrn f; auto i; for(i = 0; f[i]; i++) printn(f[i](3), 10); }
sq(x) return(x + 2);
