/* What comes? Put your answer in place of each 0. The tests have say. */
answers() {
    say(1, 0);  /* x */
    say(2, 0);  /* v[1] */
    say(3, 0);  /* v[2] */
    say(4, 0);  /* x */
    say(5, 0);  /* v[3] */
}
