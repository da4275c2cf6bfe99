mean(sum, n)
    return(sum / n);
main() {
    auto n;
    n = 2;
    while(n--)
        printn(mean(12, n), 10);
}
