main() g();
