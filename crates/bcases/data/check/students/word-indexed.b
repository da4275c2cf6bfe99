marks 10;
main() {
    extrn marks;
    marks[2] = 5;
    printn(1, 10);
}
