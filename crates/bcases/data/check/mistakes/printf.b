main() {
    printf("hi");
}
