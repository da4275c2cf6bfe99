/* Wrong: after z come other characters than letters. */
/* Told: wrote  z{|} */
main() {
    auto c;

    while((c = getchar()) != '*e')
        if(c >= 'a' & c <= 'z' | c >= 'A' & c <= 'Z')
            putchar(c + 3);
        else
            putchar(c);
}
