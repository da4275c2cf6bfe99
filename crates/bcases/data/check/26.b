main() { ++x; }
