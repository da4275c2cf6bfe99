main() {
    x = @;
}
