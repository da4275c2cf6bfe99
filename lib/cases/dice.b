/* numbers.b, print.b: random, which asks rand only where its number is above 0. */
main() {
    extrn randseed;

    randseed = 1;
    printf("%d %d %d ", random(0), random(-1), random(1 << 15));
    printf("%d %d %d", random(1000), random(100), random(1));
}
