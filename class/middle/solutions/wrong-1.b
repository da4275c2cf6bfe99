/* Wrong: it is as it was: c; gives c to nobody. */
/* Told: this statement does nothing */
middle(a, b, c) {
    if(a > b) {
        if(b > c)
            return(b);
        if(a > c)
            return(c);
        return(a);
    }
    if(a > c)
        return(a);
    if(b > c)
        c;
    return(b);
}
