main() {
    auto i;
    i = getchar();
    if(i) goto done;
    putchar(i);
done;
    putchar('*n');
}
