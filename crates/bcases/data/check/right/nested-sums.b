m[8] 1, 2, 3, 4, 5, 6, 7, 8, 9;
main() {
    extrn m;
    auto i, k, sum, all, trace;
    all = trace = 0;
    i = 0;
    while(i < 3) {
        k = sum = 0;
        while(k < 3) {
            sum =+ m[i * 3 + k];
            all =+ m[i * 3 + k];
            k++;
        }
        trace =+ m[i * 3 + i];
        printn(sum, 10);
        i++;
    }
    printn(all + trace, 10);
}
