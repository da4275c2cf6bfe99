main() { exit(128); }
