/* The same, step by step: b show asks.b > asks.html */
v[3] 10, 20, 30, 40;

main() {
    extrn v;
    auto p, x;

    p = v + 1;
    x = *p;  /* ask */
    *p = x + 5;  /* ask */
    p++;
    *p =+ 3;  /* ask */
    x = p - v;  /* ask */
    v[3] = *v + p[-1];  /* ask */
}
