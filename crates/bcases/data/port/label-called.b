main() {
    auto c;
    while((c = getchar()) != '*e')
        if(c == 'q') goto exit;
exit:
    exit(c);
}
