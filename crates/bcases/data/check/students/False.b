main() {
    auto done;
    done = False;
    printn(done, 10);
}
