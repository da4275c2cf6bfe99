/* Wrong: nothing leaves the switch, so each case goes on into the next one. */
/* Told: days(2) is 31 and not 28 */
days(month) {
    auto n;

    n = 0;
    switch month {
        case 2:
            n = 28;
        case 4: case 6: case 9: case 11:
            n = 30;
        case 1: case 3: case 5: case 7: case 8: case 10: case 12:
            n = 31;
    }
    return(n);
}
