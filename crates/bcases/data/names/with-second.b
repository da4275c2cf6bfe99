main() say(n);
