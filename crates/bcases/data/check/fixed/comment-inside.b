/* counts /* what is read */ to the end */
main() {
    putchar('a');
}
