/* print.b: printf with widths, and numbers without a sign. */
main() {
    numbers();
    bits();
    texts();
    others();
}

numbers() {
    auto low;

    low = 1 << 15;
    printf("<%5d> <%5d> <%-5d> <%05d> <%05d>*n", 42, -42, 42, 42, -42);
    printf("<%1d> <%3d> <%2d> <%0d> <%-d> <%00d>*n", 123, 123, -12, 7, 7, 7);
    printf("<%6d> <%7d> <%06d> <%07d> <%-7d>*n", low, low, low, low, low);
    printf("<%10d> <%-12d> <%3d>*n", 5, 5);
}

bits() {
    auto low;

    low = 1 << 15;
    printf("%u %u %u %u %u %u*n", 0, 9, 10, 32767, low, -1);
    printf("%x %x %x %x %x %x*n", 0, 9, 10, 15, 16, -1);
    printf("<%4x> <%04x> <%-4x> <%04x> <%2x>*n", 255, 255, 255, low, -1);
    printf("<%6u> <%05u> <%7o> <%07o> <%-4o>*n", -1, 7, low, low, 8);
    putuns(low, 2);
    putchar(' ');
    putuns(low, 16);
    printf(" %d*n", putuns(0, 2));
}

texts() {
    printf("<%3c> <%-3c> <%3c> <%1c> <%03c>*n", 'a', 'a', 'bc', 'bc', 'a');
    printf("<%5s> <%-5s> <%2s> <%3s> <%3s> <%-2s>*n", "abc", "abc", "abc", "abc", "", 0);
}

others() {
    printf("%5 %5% %5z %- %-0d %0-d %*n", 1);
    printf("%5");
    printf("%-");
    printf("%0");
    printf("%05");
}
