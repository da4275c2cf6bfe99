boxes(eggs)
    auto full;

    full = eggs / 10;
    full = full + 1;
    return(full);
}

main() {
    printn(boxes(35), 10);
}
