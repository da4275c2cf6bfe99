/* Gives the second largest of three numbers. */
middle(a, b, c) {
    if(a > b) {
        if(b > c)
            return(b);
        if(a > c)
            return(c);
        return(a);
    }
    if(a > c)
        return(a);
    if(b > c)
        return(c);
    return(b);
}
