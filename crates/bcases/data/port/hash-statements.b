main() {
    int i; # one
    int j; # two
    i = 3; /* three */ # four
    while(i) { # five
        i--; # six
        continue; # seven
    }
    j = i; # eight
    if(j) return; # nine
}
