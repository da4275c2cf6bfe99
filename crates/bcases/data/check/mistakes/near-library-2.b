main() {
    putchr('a');
    putcahr('a');
    getcharr();
    exut(0);
}
