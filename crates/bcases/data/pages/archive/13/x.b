f() return(5); main() printn(f(), 10);
