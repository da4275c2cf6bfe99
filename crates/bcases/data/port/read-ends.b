main() {
    auto c;
    while((c = read()) != 0)
        write(c);
    if(c == -1) write('n');
}
