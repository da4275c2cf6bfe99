/* How many days a month has. */
days(month) {
    switch month {
        case 2:
            return(28);
        case 4: case 6: case 9: case 11:
            return(30);
        case 1: case 3: case 5: case 7: case 8: case 10: case 12:
            return(31);
    }
    assert(month < 1 | month > 12, "days: a month lacks");
    return(0);
}
