main() {
    if(getchar() = 'y')
        putchar('y');
}
