/* What comes? Put your answer in place of each 0. The tests have say. */
answers() {
    say(1, 0);  /* f(4) */
    say(2, 0);  /* how many calls of f */
    say(3, 0);  /* what up(2) writes */
    say(4, 0);  /* active calls of f, at most */
    say(5, 0);  /* n in up(3) */
}
