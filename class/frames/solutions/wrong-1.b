/* Wrong: the first word of memory is 0, and the library takes 1 to 6. */
/* Told: the address of n: your answer is 1 and not 7 */
answers() {
    say(1, 1);
    say(2, 4);
    say(3, 6);
    say(4, 8);
    say(5, 14);
}
