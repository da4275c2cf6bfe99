void show();
main() {
    show();
}
show()
    putchar('x');
