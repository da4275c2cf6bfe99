main() {
    auto i;
    i = 3;
    while(i > 0) do {
        i--;
    }
}
