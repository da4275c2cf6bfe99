/* Wrong: a number that is no month has 31 days here. */
/* Told: days(0) is 31 and not 0 */
days(month) {
    switch month {
        case 2:
            return(28);
        case 4: case 6: case 9: case 11:
            return(30);
    }
    return(31);
}
