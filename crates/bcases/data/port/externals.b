int count;
int v[3];
main() { count = v[0]; f(g); }
f(h) h();
g() ;
