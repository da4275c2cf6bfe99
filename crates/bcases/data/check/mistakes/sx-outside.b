main() {
    case 1: ;
}
