/* What comes? Put your answer in place of each 0. The tests have say. */
answers() {
    say(1, 0);  /* 32767 + 1 */
    say(2, 0);  /* 200 * 200 */
    say(3, 0);  /* 10 / 4 * 4 */
    say(4, 0);  /* -7 / 2 */
    say(5, 0);  /* 2 + 3 * 4 */
}
