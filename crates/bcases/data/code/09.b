f(a) { auto v 1, i; L: v[i] =+ a; switch a { case 2: goto L; } return(i); }
main() f(1);
