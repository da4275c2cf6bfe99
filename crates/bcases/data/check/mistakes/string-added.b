main() {
    auto name, s 20, i;
    name = "Ann";
    i = 1;
    s[0] = i;
    say("Hello, " + name);
    say(name + " and");
    say("Hello, " + s);
    say(name + name);
    say("abc" + i);
    say(name + i);
    greet(name);
}
greet(who) {
    say("Hello, " + who);
}
say(s) {
    auto i;
    i = 0;
    while(char(s, i) != '*e')
        putchar(char(s, i++));
}
