main() { exit(255); }
