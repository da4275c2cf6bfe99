main() {
    if(1)
    begin putchar('x');
}
