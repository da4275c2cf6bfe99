/* Wrong: it counts the digits. */
/* Told: digits(7) is 1 and not 7 */
digits(n) {
    if(n < 10)
        return(1);
    return(1 + digits(n / 10));
}
