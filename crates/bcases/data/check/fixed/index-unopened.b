limits[3] 1, 2, 3;

main() {
    extrn limits;

    printn(limits0], 10);
}
