main() {
    printn(0x10, 10); printn(0x11, 10);
}
