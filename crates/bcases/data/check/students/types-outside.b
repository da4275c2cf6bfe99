int x, y;
bool done;

main() {
    extrn x, done;
    x = done = 0;
    help(x);
}
