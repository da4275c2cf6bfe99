main() {
    auto x;
    x = 5;
    if(x > 3) then
        putchar('y');
}
