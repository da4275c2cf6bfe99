main() {
    "done*n";
    if(getchar() == 'q')
        'q';
    else
        'n' + 1;
    "a\n";
}
