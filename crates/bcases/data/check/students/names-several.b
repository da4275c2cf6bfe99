count 5;

main() {
    extrn cuont;
    show(cuont);
    pritn(cuont, 10);
}
