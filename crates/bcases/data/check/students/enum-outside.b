enum { RED, GREEN };

main() printn(RED, 10);
