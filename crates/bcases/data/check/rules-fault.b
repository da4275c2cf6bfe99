main() {
    goto;
}
