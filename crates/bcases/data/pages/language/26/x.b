n 1;
f() { extrn n; n = 5; return(1); }
main() { extrn n; n =+ f(); printn(n, 10); }
