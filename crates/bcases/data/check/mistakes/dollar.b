main() {
    auto $i;
}
