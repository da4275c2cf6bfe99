/* The bytes of each word, and what is given. */
v[18] 0, 1, 4, 10, 13, 127, 128, 255, 256, 257, 511, 512, 2560, 3338, 32767, 32768, 65280, 65534, 65535;

main() {
    extrn v;
    auto i, wrong;

    i = wrong = 0;
    while(i < 19) {
        if(putchar(v[i]) != v[i]) wrong++;
        i++;
    }
    printn(wrong, 10);
}
