fn main() {
    putchar('x');
}
