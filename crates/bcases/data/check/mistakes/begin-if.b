main() {
    auto n;
    n = 5;
    while(n--)
    begin
        if(n == 3)
            putchar('3');
    end
}
