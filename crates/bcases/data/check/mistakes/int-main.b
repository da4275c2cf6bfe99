int main() {
    putchar('a');
}
