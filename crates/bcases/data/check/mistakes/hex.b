main() {
    printn(0x1F, 10);
}
