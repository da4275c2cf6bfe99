main() {
    auto ready;
    ready = 0;
    while(not ready)
        ready = 1;
}
