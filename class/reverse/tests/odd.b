given[4] 3, 1, 4, 1, 5;

main() {
    extrn given;

    reverse(given, 5);
    testvec("given", given, 5, 5, 1, 4, 1, 3);
    tests();
}
