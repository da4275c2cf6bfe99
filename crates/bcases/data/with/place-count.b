main() say('a');
