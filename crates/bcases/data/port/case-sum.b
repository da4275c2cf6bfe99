main() {
    int c;
    c = 4;
    switch(c) { case (5 - 1): putchar('4'); }
}
