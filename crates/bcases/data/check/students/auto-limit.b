main() {
    auto most 100;
    if(most > 50)
        putchar('y');
}
