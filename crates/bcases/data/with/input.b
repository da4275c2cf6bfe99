main() say(getchar());
