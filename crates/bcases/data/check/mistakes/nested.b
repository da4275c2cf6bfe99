m[8] 1, 2, 3, 4, 5, 6, 7, 8, 9;
main() {
    extrn m;
    auto i, k, sum, most;
    most = sum = 0;
    i = 0;
    while(i < 3) {
        k = 0;
        while(k < 3) {
            sum =+ m[i * 3 + i];
            k++;
        }
        if(sum > most)
            most = sum;
        i++;
    }
    printn(most, 10);
}
