main() {
    auto i, j;
    for(i = 0, j = 9; i < 3; i++, j -= 2) printn(i, 10);
    for(; i;) i--;
    for(;;) exit();
}
