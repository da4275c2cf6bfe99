/* an odd number never becomes 0 by steps of 2 */
main() {
    auto n;
    n = 7;
    while(n != 0)
        n =- 2;
}
