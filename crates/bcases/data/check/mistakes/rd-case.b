main() {
    switch 1 {
        case 1: ;
        case 'a': ;
        case 97: ;
    }
}
