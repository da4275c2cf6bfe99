main() { exit(256); }
