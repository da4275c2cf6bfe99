int sq(), db();
int (*table[2])() = { sq, db };
int (*now)(), count = 2, other();

apply(f, x)
int (*f)(), x;
{
	return((*f)(x));
}

twice(int (*f)(int), int x)
{
	int (*g)() = f;
	int (*v[2])();
	v[1] = g;
	now = f;
	return (*g)((*v[1])(x)) + (*now)(x);
}

main()
{
	int i;
	for(i = 0; i < count; i++)
		printn((*table[i])(3), 10);
	printn(apply(sq, 4) + twice(db, 5), 10);
}

sq(x) return(x + 2);
db(x) return(x + x);
