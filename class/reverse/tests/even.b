given[3] 2, 7, 1, 8;

main() {
    extrn given;

    reverse(given, 4);
    testvec(given[0] == 2 ? "all is as it was, so nothing was turned, or twice: given" : "given", given, 4, 8, 1, 7, 2);
    tests();
}
