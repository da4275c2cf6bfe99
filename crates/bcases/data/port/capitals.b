main() { extrn putstr; putchar('*N'); putstr("END*N*T*E"); return 0; }
putstr(s) ;
