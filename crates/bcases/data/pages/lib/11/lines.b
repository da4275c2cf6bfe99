main() {
    auto line 10;

    if(getstr(line))
        printf("%s*n", line);
    while(getline(line, 21))
        printf("<%s>*n", line);
}
