main() {
    extrn randseed;
    randseed = 5;
}
