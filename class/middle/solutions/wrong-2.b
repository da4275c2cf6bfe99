/* Wrong: it gives the largest one. */
/* Told: middle(2, 1, 3) is 3 and not 2 */
middle(a, b, c) {
    if(a > b)
        return(a > c ? a : c);
    return(b > c ? b : c);
}
