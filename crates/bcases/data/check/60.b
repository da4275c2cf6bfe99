f(x) { auto v 5; v[5] = 1; f(v[f(x)]); return(1); }
