given[4] 31, 14, 52, 49, 26;

main() {
    extrn given, bylast;

    arrange(given, given + 5, bylast);
    testvec("given, by the last digit", given, 5, 31, 52, 14, 26, 49);
    tests();
}

bylast(a, b)
    return(a % 10 < b % 10);
