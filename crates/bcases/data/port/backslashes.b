main() { f("a\\n", "b\\ c", "d\\\"", '\\', "e\n"); return 0; }
f() ;
