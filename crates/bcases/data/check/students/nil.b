first nil;
main() {
    extrn first;
    printn(first, 10);
}
