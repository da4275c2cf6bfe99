given[4] 3, 1, 4, 1, 5;

main() {
    extrn given;

    reverse(given, 3);
    testvec("given", given, 5, 4, 1, 3, 1, 5);
    tests();
}
