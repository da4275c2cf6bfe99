given[2] 30, 20, 10;

main() {
    extrn given;

    order(given, given + 1);
    order(given + 1, given + 2);
    order(given, given + 1);
    testvec("given", given, 3, 10, 20, 30);
    tests();
}
