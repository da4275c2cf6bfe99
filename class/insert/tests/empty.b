given[2] 99, 77, 88;

main() {
    extrn given;

    insert(given + 1, 0, 5);
    testvec("given", given, 3, 99, 5, 88);
    tests();
}
