public static void main(String[] args) {
    putchar('a');
}
