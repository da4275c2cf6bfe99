/* Wrong: it doesn't know the rule of 400. */
/* Told: isleap(2000) is 0 and not 1 */
isleap(year)
    return(year % 4 == 0 & year % 100 != 0);
