/* Tells whether a year is a leap year. */
isleap(year)
    return(year % 4 == 0 & year % 100 != 0 | year % 400 == 0);
