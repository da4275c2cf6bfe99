f[1] sq, db;
main() { extrn f; auto g; g = f[1]; printn(g(3), 10); }
sq(x) return(x + 2);
db(x) return(x + x);
