find(v, n, x) {
    auto low, high, mid;
    low = 0;
    high = n - 1;
    while(low <= high) {
        mid = (low + high) / 2;
        if(v[mid] == x)
            return(mid);
        if(v[mid] < x)
            low = mid;
        else
            high = mid - 1;
    }
    return(-1);
}
right(v, n, x) {
    auto low, high, mid;
    low = 0;
    high = n;
    while(low < high) {
        mid = (low + high) / 2;
        if(v[mid] < x)
            low = mid + 1;
        else
            high = mid;
    }
    return(low);
}
v[2] 3, 5, 7;
main() {
    extrn v;
    printn(find(v, 3, 5) + right(v, 3, 5), 10);
}
