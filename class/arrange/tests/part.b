given[4] 5, 4, 3, 2, 1;

main() {
    extrn given, less;

    arrange(given + 1, given + 4, less);
    testvec("given", given, 5, 5, 2, 3, 4, 1);
    arrange(given, given, less);
    testvec("given, of which no word is sorted", given, 5, 5, 2, 3, 4, 1);
    tests();
}

less(a, b)
    return(a < b);
