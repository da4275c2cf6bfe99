main() {
    while(1)
        if(getchar() == -1)
            return;
}
