marks[2] 3, 2, 5;
main() {
    extrn marks;
    auto i, best;
    i = 1;
    best = marks[i);
    putchar(best);
}
