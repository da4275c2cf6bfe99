/* Wrong: nothing ends the calls. */
/* Told: This means: more than 4096 active calls. */
power(b, n)
    return(b * power(b, n - 1));
