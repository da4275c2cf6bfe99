main() {
    x=a?b?1:2:3;
    x=a?1:b?2:3;
    on:y=c?d:e;
    switch x {
        case 'a':z=f?g:h;
        case 2:;
    }
}
