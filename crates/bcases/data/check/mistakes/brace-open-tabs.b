main() {
	auto i;
	i = 0;
	while(i < 3) {
		if(i == 1) {
			putchar('1');
		}
		i++;
}
