/* lines
of a
comment */ main() say('x');
/* one */ f() ;
