main() {
    switch(getchar()) { case '1': f("a\\n", "b\ c", '\'); break; }
}
f() ;
