main() {
    putchar('a'); /* one = "two" */
}
