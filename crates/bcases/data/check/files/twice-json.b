say(c) ;
main() say('x');
