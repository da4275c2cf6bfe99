main() {
    goto end;
}
