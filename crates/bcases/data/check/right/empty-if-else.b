main() {
    if(getchar() == 4) ;
    else putchar('a');
}
