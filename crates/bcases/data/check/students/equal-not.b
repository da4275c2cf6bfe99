main() {
    auto c;
    c = getchar();
    if(c =!= 4)
        putchar(c);
}
