int rows[2][3], thick[2][2][2], ragged[2][2] = {{1}, {2, 3}};
main()
{
	int row;
	row = rows[1];
	row[2] = thick[1][1][1] + ragged[1][0];
	printn(rows[1][2], 10);
}
