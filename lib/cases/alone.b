/* host.b: a run without a host, which loses its input and gets a 0. */
main() {
    printn(host("next", 1, 2), 10);
    printn(getchar(), 10);
    serve();
    putchar('.');
}
