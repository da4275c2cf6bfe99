main() putstr("two");
