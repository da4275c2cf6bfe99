main() {
    putchar('a'); // it's a remark
}
