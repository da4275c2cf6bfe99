main() {
    &1;
}
