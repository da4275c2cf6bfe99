main() {
    auto x;
    x = getchar();
    if(x == 'a') putchar('1');
    elif x == 'b': putchar('2');
}
