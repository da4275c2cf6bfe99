/* Wrong: v + 1 is the address of v[1], and not that of v[0]. */
/* Told: x in line 8: your answer is 10 and not 20 */
answers() {
    say(1, 10);
    say(2, 20);
    say(3, 23);
    say(4, 1);
    say(5, 25);
}
