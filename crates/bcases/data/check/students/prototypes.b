square(n);

main() printn(square(7), 10);

square(n) return(n * n);
