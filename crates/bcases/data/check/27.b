main() {
	auto x, y;
	x = 1; y = x;
	5 = x; x = 5;
}
