apply(f, x)
int (*f)(), x;
{
	return((*f)(x));
}
sq(x) return(x + 2);
main() { auto i; for(i = 0; i < 2; i++) printn(apply(&sq, i), 10); }
