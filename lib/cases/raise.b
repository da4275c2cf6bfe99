/* raise.b: raise in a function of a function, with a status past 127, mod 128. */
main() {
    at(0);
    putchar('.');
    at(3);
    putchar('.');
}

at(i) {
    if(i > 2)
        raise("index 3 of 3", 128 + 7);
}
