main() {
    printn(count, 10);
}
f(count) {

    count = 1;
}
count 5;
