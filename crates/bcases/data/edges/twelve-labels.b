f(a) {
l0: printn(0, 10); putchar(' '); if(a == 0) return(0); goto l5;
l1: printn(1, 10); putchar(' '); if(a == 1) return(0); goto l6;
l2: printn(2, 10); putchar(' '); if(a == 2) return(0); goto l7;
l3: printn(3, 10); putchar(' '); if(a == 3) return(0); goto l8;
l4: printn(4, 10); putchar(' '); if(a == 4) return(0); goto l9;
l5: printn(5, 10); putchar(' '); if(a == 5) return(0); goto l10;
l6: printn(6, 10); putchar(' '); if(a == 6) return(0); goto l11;
l7: printn(7, 10); putchar(' '); if(a == 7) return(0); goto l0;
l8: printn(8, 10); putchar(' '); if(a == 8) return(0); goto l1;
l9: printn(9, 10); putchar(' '); if(a == 9) return(0); goto l2;
l10: printn(10, 10); putchar(' '); if(a == 10) return(0); goto l3;
l11: printn(11, 10); putchar(' '); if(a == 11) return(0); goto l4;
}

main() { f(7); putchar('*n'); f(11); putchar('*n'); f(10); }
