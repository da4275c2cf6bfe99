int main(void)
{
	int i, v[3];
	i =(int)-1;
	v[1] = (char) i + (int) v[0] * 2;
	if((int) i < 0 && v[1]) return (int) (v[1]);
	printn((int) 'a', 10);
}
