/* Wrong: it goes from left to right, also where a product comes after a sum. */
/* Told: 2 + 3 * 4: your answer is 20 and not 14 */
answers() {
    say(1, -32768);
    say(2, -25536);
    say(3, 8);
    say(4, -3);
    say(5, 20);
}
