/* the byte is read once, before the loop */
main() {
    auto n;
    n = getchar() - '0';
    while(n = 1)
        printn(n, 10);
}
