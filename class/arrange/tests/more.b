given[5] 31, 4, 15, 9, 26, 5;

main() {
    extrn given, more;

    arrange(given, given + 6, more);
    testvec("given", given, 6, 31, 26, 15, 9, 5, 4);
    tests();
}

more(a, b)
    return(a > b);
