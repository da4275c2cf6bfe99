/* Wrong: it begins with b, so power(b, 0) is b. */
/* Told: power(5, 0) is 5 and not 1 */
power(b, n) {
    auto product;

    product = b;
    while(n > 1) {
        product = product * b;
        n--;
    }
    return(product);
}
