main() {
    auto s, n;
    s = "abc";
    n = 3;
    printf("%s has %d*n", s);
    printf("%d*n", n, s);
    printf("%d of 100%%, %-5s.*n", n, s);
    printf(s, n);
    printf("50% off*n");
}
printf(form, a, b) {
    auto p;
    p = &form;
    return(p[0] + a + b);
}
