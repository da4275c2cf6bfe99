int n;
f() { if(1) { int n; n = 1; } n = 2; }
main() f();
