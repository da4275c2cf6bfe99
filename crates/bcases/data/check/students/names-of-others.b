main() {
    auto end, input;
    end = 3;
    input = 0;
    while(input < end)
        printn(input++, 10);
}
