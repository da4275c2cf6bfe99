/* The sum of the digits of a number, which is 0 where no digit is left. */
digits(n) {
    if(n == 0)
        return(0);
    return(digits(n / 10) + n - n / 10 * 10);
}
