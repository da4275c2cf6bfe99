/* raise.b: raise in a function of a function, with a status past 127, mod 128. */
main() {
    at(0);
    putchar('.');
    at(3);
    putchar('.');
}

at(i) {
    if(i > 2)
        raise("index 3 of 3", 128 + 7);
}
/* raise.b: an end with a text. It needs no other file. */

/* raise(text, status) writes the string text and a newline, and ends the run with the status, mod 128. A program that
   runs this one knows the function by its name, and finds the text and its caller: text stays as it came.
   Known from: this project. */
raise(text, status) {
    auto i, c;

    i = 0;
    while((c = char(text, i++)) != '*e')
        putchar(c);
    putchar('*n');
    exit(status);
}
