/* A file of functions has no main. */
min(a, b) return(a < b ? a : b);
mean(a, b) { return((a + b) / 2); }
