/* Gives b multiplied by itself, n times, by a call for one time less. */
power(b, n)
    return(n == 0 ? 1 : b * power(b, n - 1));
