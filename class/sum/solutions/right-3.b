/* How many numbers the input has, their sum and their mean. */
main() {
    auto n, count, sum;

    count = sum = 0;
    while(getnum(&n)) {
        count++;
        sum =+ n;
    }
    printf("%d %d %d*n", count, sum, count ? sum / count : 0);
}
