main() {
    switch 1 {
        default: ;
        case 1: ;
        default: ;
    }
}
