main() {
    auto x;
    x = getchar();
    if(x == 'a') putchar('1');
    elseif(x == 'b') putchar('2');
}
