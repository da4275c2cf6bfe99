main() {
    twice('x');
}