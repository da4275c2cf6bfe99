main() { exit(127); }
