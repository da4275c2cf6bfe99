/* vectors.b: vectors. It needs no other file. */

/* sort(v, n) sorts the n signed words v[0] to v[n - 1], the smallest first, and gives v.
   Known from: this project. */
sort(v, n)
    return(sortby(v, n, 0));

/* sortby(v, n, order) sorts the n words by a function, and gives v: order(a, b) is above 0 where a comes after b, as
   compare of strings.b is for strings. Words that are equal for it may change places. Where order is 0, they are signed
   numbers.
   Known from: this project. */
sortby(v, n, order) {
    auto gap, i, k, x;

    gap = n / 2;
    while(gap > 0) {
        i = gap;
        while(i < n) {
            x = v[i];
            k = i++ - gap;
            while(k < 0 ? 0 : (order ? order(v[k], x) > 0 : v[k] > x)) {
                v[k + gap] = v[k];
                k =- gap;
            }
            v[k + gap] = x;
        }
        gap =/ 2;
    }
    return(v);
}

/* fill(v, n, x) stores x in the n words v[0] to v[n - 1], and gives v. Where n is 0 or negative it stores none.
   Known from: C, as memset. */
fill(v, n, x) {
    while(n > 0)
        v[--n] = x;
    return(v);
}

/* givevec(v, n) gives the words v[0] to v[n], which are the program's own, to getvec. What it gave before is forgotten.
   Gives 0.
   Known from: this project. */
givevec(v, n) {
    extrn vecnext, vecleft;

    vecnext = v;
    vecleft = n + 1;
}

/* getvec(n) gives a vector v with the words v[0] to v[n], which no other call has. They aren't cleared. It gives 0
   where fewer words are left of what givevec gave, or n is negative.
   Known from: later compilers. */
getvec(n) {
    extrn vecnext, vecleft;

    if(n < 0 | n >= vecleft)
        return(0);
    vecleft =- n + 1;
    vecnext =+ n + 1;
    return(vecnext - n - 1);
}

/* rlsevec(v, n) takes back v, which getvec(n) gave, where it is the last one that wasn't taken back. Else its words are
   lost until givevec. Of 0, which is no vector, it takes nothing. Gives 0.
   Known from: later compilers. */
rlsevec(v, n) {
    extrn vecnext, vecleft;

    if(v ? v + n + 1 == vecnext : 0) {
        vecnext = v;
        vecleft =+ n + 1;
    }
}

vecnext;
vecleft;
