main() {
    auto i;
    i = 0;
    }
    putstr("done*n");
}
