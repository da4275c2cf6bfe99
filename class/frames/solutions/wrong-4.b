/* Wrong: the frame of a call comes after that of its caller, and not in its place. */
/* Told: the address of a: your answer is 10 and not 14 */
answers() {
    say(1, 7);
    say(2, 10);
    say(3, 12);
    say(4, 10);
    say(5, 14);
}
