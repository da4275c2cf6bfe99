f(p) {
    auto v 0, i, w 1;
    goto two;
one:
    i = w[1];
    goto out;
two:
    p = v;
    goto one;
out:
    ;
}
main() f(1);
