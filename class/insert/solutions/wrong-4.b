/* Wrong: x comes after the last word, wherever it belongs. */
/* Told: given[4] is 30 and not 20 */
insert(v, n, x)
    *(v + n) = x;
