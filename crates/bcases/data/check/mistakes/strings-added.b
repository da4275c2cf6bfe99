/* A + between strings adds their addresses. */
main() {
    auto s, n;
    n = 1;
    s = "ab" + "cd";
    s = n ? "a" + "b" : s;
    say("left " + "right");
    if(n) { say("a" +
        "b"); }
    while(n--) s = ("x" + "y") + n;
last: return("in " + "out");
    s = "ab" + 1;
    s = s + n;
    say("a+b");
}
say(s) { return(s + 1); }
