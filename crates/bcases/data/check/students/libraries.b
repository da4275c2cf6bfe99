main() {
    auto name 10;
    putstr("Your name?*n");
    getstr(name);
    printf("%d letters.*n", length(name));
    putstr("Bye.*n");
}
