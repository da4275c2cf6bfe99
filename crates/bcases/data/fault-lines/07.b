a;
b;

a;