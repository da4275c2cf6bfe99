/* Wrong: what was put first is on the left: this takes 5 from 2. */
/* Told: on top after place 3: your answer is -3 and not 3 */
answers() {
    say(1, -3);
    say(2, -24);
    say(3, 2);
    say(4, 12);
    say(5, 200);
}
