/* A vector called, and stored to. */
fill(n) {
    auto a 3, i;
    i = 0;
    while(i <= 3)
        a(i++) = n; /* told */
}
main() fill(2);
