given[6] 99, 10, 20, 20, 30, 77, 88;

main() {
    extrn given;

    insert(given + 1, 4, 20);
    testvec("given", given, 7, 99, 10, 20, 20, 20, 30, 88);
    tests();
}
