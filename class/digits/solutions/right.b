/* The sum of the digits of a number. */
digits(n)
    return(n < 10 ? n : n % 10 + digits(n / 10));
