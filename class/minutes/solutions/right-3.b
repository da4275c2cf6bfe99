/* b: --with print */
/* Minutes, seconds and weeks. The first line names the file that has printf. */
main()
    printf("%d*n%d*n%d*n", 7 * 24 * 60, 60 * 60, 1000 / 7);
