/* What comes? Put your answer in place of each 0. The tests have say. */
answers() {
    say(1, 0);  /* the address of n */
    say(2, 0);  /* the address of x */
    say(3, 0);  /* what is in v */
    say(4, 0);  /* the address of a */
    say(5, 0);  /* what is in r */
}
