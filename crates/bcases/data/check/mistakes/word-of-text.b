count(s, letter) {
    auto i, n;
    n = i = 0;
    while(char(s, i) != '*e') {
        if(s[i] == letter)
            n++;
        i++;
    }
    return(n);
}
main()
    printn(count("abba", 'b'), 10);
