/* Wrong: a remainder can't be assigned to; == compares. */
/* Told: more than one operand is before this assignment */
isleap(year) {
    if(year % 400 = 0)
        return(1);
    return(year % 4 == 0 & year % 100 != 0);
}
