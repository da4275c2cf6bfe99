main() twice('y');
