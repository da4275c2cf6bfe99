main() {
    on: ;
    off: ;
    on: goto off;
}
