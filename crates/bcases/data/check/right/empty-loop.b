main() {
    while(getchar() != '*n') ;
    putchar('!');
}
