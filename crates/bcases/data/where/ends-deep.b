main() printn(sum(300), 10);
sum(n) return(n ? n + sum(n - 1) : 0);
