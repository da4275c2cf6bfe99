main() {
    auto v 32000;
    main();
}
