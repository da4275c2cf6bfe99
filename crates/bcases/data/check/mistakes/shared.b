main() {
    count = 0;
    step();
    printn(count, 10);
}

step() {
    count++;
}
