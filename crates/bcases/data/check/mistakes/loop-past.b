v[4] 3, 5, 7, 9, 11;
main() {
    extrn v;
    auto i, sum, w 3;
    sum = 0;
    i = 0;
    while(i <= 5) {
        sum =+ v[i];
        i++;
    }
    i = 1;
    while(i <= 5) {
        sum =+ v[i];
        i++;
    }
    i = 0;
    while(i < 5) {
        w[i] = 0;
        i++;
    }
    i = 0;
    while(i <= 4) {
        sum =+ v[i];
        i++;
    }
    i = 0;
    while(i < 5) {
        i++;
        sum =+ v[i];
    }
    i = 0;
    while(i < 9) {
        if(i < 5)
            sum =+ v[i];
        i++;
    }
    printn(sum, 10);
}
