main() say('x');
