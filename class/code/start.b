/* What comes? Put your answer in place of each 0. The tests have say. */
answers() {
    say(1, 0);  /* on top after place 3 */
    say(2, 0);  /* on top after place 4 */
    say(3, 0);  /* how many words before place 4 */
    say(4, 0);  /* the place after place 9 */
    say(5, 0);  /* what r returns */
}
