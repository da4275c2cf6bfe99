main() {
    auto line 40;
    while(getline(line, 80))
        putchar(char(line, 0));
}
