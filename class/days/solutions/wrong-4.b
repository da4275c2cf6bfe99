/* Wrong: month == 4 | 6 is (month == 4) | 6, which always holds. */
/* Told: days(1) is 30 and not 31 */
days(month) {
    if(month == 2)
        return(28);
    if(month == 4 | 6 | 9 | 11)
        return(30);
    return(month >= 1 & month <= 12 ? 31 : 0);
}
