/* Wrong: the remainder is 0 for a leap year, and what it gives is turned round. */
/* Told: isleap(1973) is 1 and not 0 */
isleap(year)
    return(year % 4);
