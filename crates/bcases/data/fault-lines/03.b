a;

abcdefghi;