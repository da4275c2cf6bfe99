main() {
    auto x;
    x = getchar();
    if(x == 'a') { putchar('1'); }
    elsif(x == 'b') { putchar('2'); }
}
