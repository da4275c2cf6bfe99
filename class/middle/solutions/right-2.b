/* Gives the second largest of three numbers: the largest one of two, if the third isn't between. */
middle(a, b, c) {
    auto low, high;

    low = a < b ? a : b;
    high = a < b ? b : a;
    return(c < low ? low : c > high ? high : c);
}
