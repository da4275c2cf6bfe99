main() {
    print("Hello");
}
