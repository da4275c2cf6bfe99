main() {
    auto i;

    i = 0;
    while(i < 3)
        putchar('a');
        i++;
    }
}
