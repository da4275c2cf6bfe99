given[2] 1, 2, 3;

main() {
    extrn given;

    reverse(given, 2);
    testvec("given", given, 3, 2, 1, 3);
    tests();
}
