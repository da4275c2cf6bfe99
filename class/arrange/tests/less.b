given[5] 31, 4, 15, 9, 26, 5;

main() {
    extrn given, less;

    arrange(given, given + 6, less);
    testvec("given", given, 6, 4, 5, 9, 15, 26, 31);
    tests();
}

less(a, b)
    return(a < b);
