given[5] 99, 10, 20, 30, 77, 88;

main() {
    extrn given;

    insert(given + 1, 3, 25);
    testvec("given", given, 6, 99, 10, 20, 25, 30, 88);
    tests();
}
