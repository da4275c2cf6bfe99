/* Words that a 0 ends, and characters that are kept among other values. */
words[3] 7, 8, 9, 0;

later() ;

main() {
    extrn words;
    auto p, i, c, text 4;
    p = words;
    while(*p) printn(*p++, 2);
    i = 0;
    while(words[i]) i++;
    c = 1;
    while(c) if((c = getchar()) == '*e') c = 0;
    lchar(text, 'a', 'b');
    printn(i, 10);
    printn(10, 2);
    later();
}
