/* The sum of the digits of a number. */
digits(n) {
    assert(n >= 0, "digits: n is negative");
    return(n < 10 ? n : n % 10 + digits(n / 10));
}
