/* numbers.b, print.b: after how many calls rand gives the same numbers, and how many of them are 0, odd, and above
   16383. It is a number without a sign. */
main() {
    extrn randseed;
    auto calls, zeros, odd, high, x;

    randseed = 1;
    calls = zeros = odd = high = 0;
    while(calls == 0 | randseed != 1) {
        x = rand();
        calls++;
        zeros =+ x == 0;
        odd =+ x & 1;
        high =+ x > 16383;
    }
    printf("%o %d %o %o", calls, zeros, odd, high);
}
