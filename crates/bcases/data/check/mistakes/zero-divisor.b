v[4] 1, 2, 3, 4, 5;
main() {
    extrn v;
    auto i, sum, count;
    sum = 0;
    count = 0;
    i = 0;
    while(i < 5) {
        sum = sum + v[i];
        i++;
    }
    printn(sum / count, 10);
}
