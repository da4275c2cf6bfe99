10 main() {
    x += 1; y = "a\n";
20 }
