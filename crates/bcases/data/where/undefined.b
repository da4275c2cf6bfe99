main() putstr("a");
