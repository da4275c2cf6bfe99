count 0;

main() {
    auto total;
    tick();
    total = count;
}

tick() {
    count++;
}

add(n) {
    total = total + n;
}

show() {
    printn(total, 10);
    tick;
    return(main);
}
