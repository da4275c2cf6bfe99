/* Gives b multiplied by itself, n times. */
power(b, n) {
    auto product;

    assert(n >= 0, "power: n is negative");
    product = 1;
    while(n > 0) {
        product = product * b;
        n--;
    }
    return(product);
}
