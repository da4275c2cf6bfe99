/* Wrong: *p is the word of the vector itself, and no copy of it. */
/* Told: v[1] in line 9: your answer is 20 and not 25 */
answers() {
    say(1, 20);
    say(2, 20);
    say(3, 30);
    say(4, 2);
    say(5, 30);
}
