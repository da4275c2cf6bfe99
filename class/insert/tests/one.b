given[3] 99, 8, 77, 88;

main() {
    extrn given;

    insert(given + 1, 1, 3);
    testvec("given", given, 4, 99, 3, 8, 88);
    tests();
}
