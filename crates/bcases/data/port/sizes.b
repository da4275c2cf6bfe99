#define MAX 4
int sums[MAX+1], pairs[2*MAX];

main()
{
	int count[MAX + 1], few[MAX*2-1];
	static int primes[] = { 2, 3, MAX+1 };
	int two[2] = { 'a', -1 };

	sums[MAX] = primes[2];
	pairs[7] = two[0];
	count[MAX] = few[6] = 1;
	putchar(pairs[7]);
	printn(sums[MAX], 10);
}
