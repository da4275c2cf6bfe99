/* Wrong: the greater word is lost before it is stored at q. */
/* Told: the word at q is 4 and not 9 */
order(p, q)
    if(*p > *q) {
        *p = *q;
        *q = *p;
    }
