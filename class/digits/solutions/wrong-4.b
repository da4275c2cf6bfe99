/* Wrong: it adds what is before the last digit as a number. */
/* Told: digits(1972) is 199 and not 19 */
digits(n) {
    if(n < 10)
        return(n);
    return(n % 10 + n / 10);
}
