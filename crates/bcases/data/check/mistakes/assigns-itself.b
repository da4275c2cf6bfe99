/* What ++ and -- give after a name is the old value. */
main() {
    auto i, j, v 3;
    i = j = 0;
    i = i++;
    while(i++ < 3)
        j = j--;
    if(i) { i = i++; }
    v[i = i--] = 1;
    printn(i = i++, 10);
again: j = j++;
    i = j++;
    v[i] = v[i]++;
    i = ++i;
    printn(v[i] + j, 10);
}
