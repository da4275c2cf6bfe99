/* Wrong: the last return was changed, which was right. */
/* Told: middle(1, 2, 3) is 3 and not 2 */
middle(a, b, c) {
    if(a > b) {
        if(b > c)
            return(b);
        if(a > c)
            return(c);
        return(a);
    }
    if(a > c)
        return(a);
    return(c);
}
