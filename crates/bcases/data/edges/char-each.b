/* Each byte of a word, in either half. */
main() {
    auto i, w, wrong;

    i = wrong = 0;
    while(i < 256) {
        w = i * 256 + 255 - i;
        if(char(&w, 0) != 255 - i) wrong++;
        if(char(&w, 1) != i) wrong++;
        /* the index is unsigned, and addresses wrap: 32768 words before, and 32768 words on */
        if(char(&w + 32768, 65535 - 0) != char(&w - 1, 1)) wrong++;
        i++;
    }
    printn(wrong, 10);
    w = 25185;
    putchar(char(&w, 0));
    putchar(char(&w - 1, 3));
    putchar(char(&w - 32767, 65534));
    putchar(char(&w - 32767, 65535));
    printn(char(65535, 2), 10);
    printn(char(0, 12), 10);
    printn(char(65535, 15), 10);
}
