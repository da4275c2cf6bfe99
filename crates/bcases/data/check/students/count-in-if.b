main() {
    auto c, lines;
    while((c = getchar()) != '*e')
        if(c == '*n')
            lines++;
    printn(lines, 10);
}
