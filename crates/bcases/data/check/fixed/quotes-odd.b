main() {
    printf("*"); printf("\n");
}
