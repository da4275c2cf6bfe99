main() exit(3);
