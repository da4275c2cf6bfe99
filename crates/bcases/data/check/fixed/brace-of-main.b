main() {
    extrn n;

    printn(n, 10);

n 60;
