functions[2] add_two, twice;
one add_two;
main() {
    auto g, i;
    for(i = 0; i < 2; i++) {
        g = functions[i];
        printn(g(3), 10);
    }
    printn(functions[0](1) + one(7), 10);
}
add_two(x) return(x + 2);
twice(x) return(x + x);
