main() f(1);
/* open