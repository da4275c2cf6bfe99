/* Wrong: it knows only the rule of 4. */
/* Told: isleap(1900) is 1 and not 0 */
isleap(year)
    return(year % 4 == 0);
