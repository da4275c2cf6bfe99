main() {
    goto loop;
lop:
    ;
}
