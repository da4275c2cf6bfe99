main() { exit(65535); }
