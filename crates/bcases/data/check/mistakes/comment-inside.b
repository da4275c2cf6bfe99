/* a
/* b */
 c */
main() {
    putchar('a');
}
