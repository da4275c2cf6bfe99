main() {
    auto n;
    goto first;
    again:
    printn(n, 10);
    return;
    first:
    n = 5;
    goto again;
}
