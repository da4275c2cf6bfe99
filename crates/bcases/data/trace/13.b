main() {
L:  f(L);
}
f(a)
    goto a;
