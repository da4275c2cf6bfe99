main() { return /* a && b += c */ 1; }
