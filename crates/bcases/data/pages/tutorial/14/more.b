marks[4] 12, 17, 9, 20, 14;

main() {
    extrn marks;
    auto i, n, sum;

    n = 5;
    sum = i = 0;
    while(i <= n)
        sum = sum + marks[i++];
    printn(sum, 10);
}
