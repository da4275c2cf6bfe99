/* Wrong: nothing ends the calls. */
/* Told: This means: more than 4096 active calls. */
digits(n)
    return(n % 10 + digits(n / 10));
