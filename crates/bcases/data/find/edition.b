main() {
    while(1)
        break;
}
