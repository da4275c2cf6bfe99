/* Wrong: the call has no return, so what it gives is lost. */
/* Told: digits(10) is 0 and not 1 */
digits(n) {
    if(n < 10)
        return(n);
    n % 10 + digits(n / 10);
}
