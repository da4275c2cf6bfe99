/* Externals with initial values: the compiler writes their code text. */
width 64;
masks 1, 2, 4, 010, 020;
letters 'ab', width;
empty;
