/* Strings handed over, and addresses compared. */
same(s, t) {
    auto i;
    i = 0;
    while(char(s, i) == char(t, i)) {
        if(char(s, i) == '*e')
            return(1);
        i++;
    }
    return(0);
}
second(s) {
    if(same(s, "stop") == 1)
        return(1);
    return(char("abc", 1) == 'b');
}
third(s, t) {
    if(s == t)
        return(1);
    if(s == 0)
        s = "none";
    return(same(s = "x", t) != 0);
}
main() {
    second("stop");
    third("a", "b");
}
