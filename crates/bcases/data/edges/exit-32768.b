main() { exit(32768); }
