given[3] 31, 40, 35, 9;
strange;

main() {
    extrn given, less, strange;

    arrange(given, given + 4, less);
    test("before gets the words, and no addresses: what it got", strange, 0);
    testvec("given", given, 4, 9, 31, 35, 40);
    tests();
}

less(a, b) {
    extrn strange;

    if(a != 31 & a != 40 & a != 35 & a != 9)
        strange = a;
    return(a < b);
}
