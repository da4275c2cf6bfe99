extern int score;
main() {
    printn(1, 10);
}
