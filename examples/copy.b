/* Copies strings into a vector, one after another, and compares them. */
main() {
    auto line 20, end;

    end = copy(line, 0, "hello");
    end = copy(line, end, ", ");
    copy(line, end, "world*n");
    string(line);
    printn(same(line, "hello, world*n"), 10);
    printn(same(line, "hello"), 10);
    putchar('*n');
}

/* Copies a string to a place in another, and gives the place of its end there. */
copy(to, at, from) {
    auto i;

    i = 0;
    while(lchar(to, at, char(from, i++)) != '*e')
        at++;
    return(at);
}

same(s, t) {
    auto i, c;

    i = 0;
    while((c = char(s, i)) == char(t, i)) {
        if(c == '*e')
            return(1);
        i++;
    }
    return(0);
}

string(s) {
    auto i, c;

    i = 0;
    while((c = char(s, i++)) != '*e')
        putchar(c);
}
