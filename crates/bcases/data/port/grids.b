#define W 4
int board[3][W], plain[2];
int rows[2][3] = {{1, 2, 3}, {4, 5, 6}};

total(int v[][3], int n)
{
	int i, k, sum = 0;
	for(i = 0; i < n; i++)
		for(k = 0; k < 3; k++)
			sum += v[i][k];
	return sum;
}

main()
{
	int own[2][W + 1], i;
	plain[1] = 1;
	own[plain[1]][3] = 7;
	board[1][own[1][3] - 5] = total(rows, 2);
	for(i = 0; i < W; i++)
		printn(board[1][i], 10);
}
