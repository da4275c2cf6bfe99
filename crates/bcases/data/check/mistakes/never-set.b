read(p) *p = getchar();
main() {
    auto numbers, n, i;
    i = 0;
    while(i < 5) {
        read(&n);
        numbers[i] = n;
        i = i + 1;
    }
    putchar(numbers[0]);
}
