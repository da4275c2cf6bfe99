/* Right programs that call exit. */

main() {
    auto v 9, k;
    k = 0;
    while(1) {
        if(k == 10) { printn(v[9], 10); exit(); }
        v[k] = k;
        k++;
    }
}
