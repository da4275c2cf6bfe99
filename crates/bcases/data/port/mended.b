main() {
    auto i;
    for(i = 0; i < 3; i++)
        if(i = 2) putchar('a');
}
