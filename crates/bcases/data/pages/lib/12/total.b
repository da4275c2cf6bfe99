main() {
    auto n, sum;

    sum = 0;
    while(getnum(&n))
        sum =+ n;
    printf("%d*n", sum);
}
