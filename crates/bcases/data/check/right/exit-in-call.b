/* A call in a loop may end the program. */
main() {
    auto on;
    on = 1;
    while(on)
        step();
}
step() {
    extrn last;
    if(getchar() == '*e')
        last();
}
last exit;
