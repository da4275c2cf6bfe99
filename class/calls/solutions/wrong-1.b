/* Wrong: each call has a word n of its own, which calls within it don't change. */
/* Told: what up(2) writes: your answer is 2100 and not 2112 */
answers() {
    say(1, 5);
    say(2, 9);
    say(3, 2100);
    say(4, 4);
    say(5, 0);
}
