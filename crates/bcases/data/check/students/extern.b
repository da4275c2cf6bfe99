main() {
    extern score;
    score = 1;
}
score;
