/* vectors.b, print.b: fill, which leaves the words beside its own alone. */
main() {
    auto v 4;

    show(fill(v, 5, 7));
    fill(v + 1, 3, -1);
    show(v);
    fill(v, 1, 0);
    fill(v, 0, 9);
    fill(v, -1, 9);
    show(v);
    printf("%d", fill(v, 2, 1) == v);
}

show(v)
    printf("%d %d %d %d %d*n", v[0], v[1], v[2], v[3], v[4]);
