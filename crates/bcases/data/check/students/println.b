main() {
    println(42);
}
