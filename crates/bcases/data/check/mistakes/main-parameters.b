/* Nothing calls main with arguments. */
main(argc) {
    printn(argc, 10);
}
