total 0;
prime[4] 2, 3, 5;
firm "B&b <1>";
sum(v, n) {
    extrn total;
    auto i;
    i = 0;
    while(i < n)
        total =+ v[i++];
    return(total);
}
main() {
    extrn prime;
    auto t, w 2;
    w[1] = 7;
    t = sum(prime, 3);
}
