main() {
    auto i, j, k;
    i = 0;
    j = 0;
    k = 0;
    while(i < 3) {
        while(j < 3) {
            putchar('**');
            j++;
        }
        putchar('*n');
        i++;
    }
    i = 0;
    while(i < 3) {
        j = 0;
        while(j < 3)
            j++;
        while(k < i)
            k++;
        i++;
    }
}
