/* Labels before statements and at an end. */
first(n) {
    if(n > 3)
        goto end;
    n++;
end: ;
}
second(n) {
again: n--;
    if(n > 0) goto again;
out: return(n);
    goto out;
}
third(c) {
    auto where;
    where = two;
    goto where;
one: two: c = 1;
    if(c == 2) goto one;
three: f(c);
    switch c { case 1: four: f(2); }
    if(c == 5) goto four;
    if(c == 7) goto three;
}
f(c) return(c);
main() {
    first(1); second(2); third(1);
}
