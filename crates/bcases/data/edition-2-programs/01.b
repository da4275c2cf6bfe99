main() {
    auto i;
    i = 0;
    while(i < 4) {
        switch i { default: putchar('d'); case 1: putchar('1'); case 2: putchar('2'); }
        putchar(' ');
        switch i { case 1: putchar('1'); default: putchar('d'); case 2: putchar('2'); }
        putchar(' ');
        switch i { case 1: putchar('1'); case 2: putchar('2'); default: putchar('d'); }
        putchar('*n');
        i++;
    }
}
