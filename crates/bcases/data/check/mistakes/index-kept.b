temp[3] 14, 17, 12, 21;
main() {
    extrn temp;
    auto i, max, min, at;
    max = min = temp[0];
    at = 0;
    i = 1;
    while(i < 4) {
        if(temp[i] > max)
            max = i;
        if(min > temp[i]) {
            putchar('<');
            min = i;
        }
        if(temp[i] > temp[at])
            at = i;
        i++;
    }
    printn(max + min + at, 10);
}
