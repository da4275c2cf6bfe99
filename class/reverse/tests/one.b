given[2] 1, 2, 3;

main() {
    extrn given;

    reverse(given, 1);
    testvec("given", given, 3, 1, 2, 3);
    tests();
}
