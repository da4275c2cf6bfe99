f(a[]) return(a[0]);
main() f("b");
