main() {
    if(1) {
        putchar('x');
    } end;
}
