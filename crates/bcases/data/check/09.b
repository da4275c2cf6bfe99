abcdefghi;
