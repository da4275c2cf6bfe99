a;
b; /* c
d;