/* Wrong: it reads two characters a turn: one in the condition, and one in the loop. */
/* Told: wrote  E B */
main() {
    auto c;

    while(getchar() != '*e') {
        c = getchar();
        if(c >= 'a' & c <= 'z')
            putchar((c - 'a' + 3) % 26 + 'a');
        else if(c >= 'A' & c <= 'Z')
            putchar((c - 'A' + 3) % 26 + 'A');
        else
            putchar(c);
    }
}
