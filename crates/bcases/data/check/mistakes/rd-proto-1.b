m 1;
f();
main() f();
f() {
    m();
}
