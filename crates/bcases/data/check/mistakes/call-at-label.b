main() {
again: printn 1, 10;
    goto again;
}
