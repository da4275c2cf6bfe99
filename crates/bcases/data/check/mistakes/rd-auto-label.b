main() {
    auto on;
    on = 1;
    on: ;
}
