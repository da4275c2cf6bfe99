total() ;
ab ;

main() {
    toatl();
    totl();
    totall();
    tota();
    otal();
    xtotal();
    tokal();
    ottal();
    totla();
    totay();
    xotal();
    tootal();
    tolat();
    tot();
    totalxy();
    atotl();
    ac();
    abcd1();
}
