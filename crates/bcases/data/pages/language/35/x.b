twice(f, x) return(f(f(x)));
add3(x) return(x + 3);
main() { extrn add3; printn(twice(add3, 1), 10); }
