int v[3] 7, -8, 9, n 4, word 'a', 'b', f sq, db, last;
main() { n = v[1]; printn(n + last, 10); }
sq(x) return(x + 2);
db(x) return(x + x);
