f(a) {
a;
a: ; }