main() {
    auto n, fact, sum;
    n = 5;
    while(n > 0) {
        fact = fact * n;
        sum =+ n;
        n--;
    }
    printn(fact + sum, 10);
}
