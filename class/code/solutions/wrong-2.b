/* Wrong: b takes its two words away, and they don't stay below. */
/* Told: words before place 4: your answer is 4 and not 2 */
answers() {
    say(1, 3);
    say(2, 24);
    say(3, 4);
    say(4, 12);
    say(5, 200);
}
