/* The primes below 100. */
main() {
    extrn crossed;
    auto i, j;

    i = 2;
    while(i < 100) {
        if(!crossed[i]) {
            printn(i, 10);
            putchar('*n');
            j = i + i;
            while(j < 100) {
                crossed[j] = 1;
                j =+ i;
            }
        }
        i++;
    }
}

crossed[100];
