int sq(), db();
int (*f[2])() = { sq, db };

apply(g, x)
int (*g)();
{
	return((*g)(x));
}

main()
{
	int (*g)();
	g = f[1];
	printn((*g)(3) + (*f[0])(1) + f[1](2) + apply(f[0], 4), 10);
}

sq(x) return(x + 2);
db(x) return(x + x);
