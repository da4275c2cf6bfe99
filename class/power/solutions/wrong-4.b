/* Wrong: it adds b n times, where it should multiply. */
/* Told: power(2, 3) is 6 and not 8 */
power(b, n) {
    auto sum;

    sum = 0;
    while(n > 0) {
        sum = sum + b;
        n--;
    }
    return(sum);
}
