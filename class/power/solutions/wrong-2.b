/* Wrong: it returns nothing, so each call gives 0. */
/* Told: use the value of power, and power returns none */
power(b, n) {
    auto product;

    product = 1;
    while(n > 0) {
        product = product * b;
        n--;
    }
}
