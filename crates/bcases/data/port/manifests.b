manifest N = 3, M = 'a';
manifest { A = 1; B = 2 };
main() { auto v[N]; v[A] = M; putchar(v[B - 1]); }
