main() exit(1);
