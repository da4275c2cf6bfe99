take(to, from) {
    auto i, c;
    i = 0;
    while((c = char(from, i)) != '*e') {
        lchar(to, i, c);
        i++;
    }
}
main() {
    auto word 20;
    take(word, "abc");
    if(compare(word, "abc"))
        putchar('y');
}
compare(s, t)
    return(char(s, 0) != char(t, 0));
