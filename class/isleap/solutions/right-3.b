/* Tells whether a year is a leap year. */
isleap(year) {
    assert(year > 0, "isleap: a year is at least 1");
    return(year % 4 == 0 & year % 100 != 0 | year % 400 == 0);
}
