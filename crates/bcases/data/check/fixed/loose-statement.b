set()
    k = 100;
}

k 5;

main() {
    set();
}
