main() {
    if(1)
        break;
}
