main() {
    auto n;
    n = 3;
    if(n)
        goto done;
    putchar('n');
done:
}
