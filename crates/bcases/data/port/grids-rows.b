int uneven[2][2] = {{1}, {2, 3}}, bare[2][2] 1, 2;
main() printn(uneven[1][0] + bare[1][1], 10);
