main() {
}