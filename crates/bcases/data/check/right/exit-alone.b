main() {
    exit();
}
