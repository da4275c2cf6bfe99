counter1 1;
counter2 2;

line(n, base) {
    printn(n, base);
    putchar('*n');
}

number(n)
    line(n, 10);

main() {
    extrn counter1, counter2;
    auto word;

    line(-1, 8);
    line(-5, 2);
    line(-9, 3);
    line(-81, 9);
    line(32767, 8);
    line(32768, 8);
    line(65535, 10);
    number(1 << 15);
    number(1 << 16);
    number(1 << 32);
    number(1 << 64);
    number(1 << 256);
    number(1 << 65535);
    number(65535 >> 15);
    number(65535 >> 32);
    number(65535 >> 64);
    number(65535 >> 256);
    number(65535 >> 32768);
    word = 3;
    number(word =<< 32);
    number(256 == 512);
    number(256 != 512);
    number(!256);
    number(65535 * 65535);
    number(255 * 257);
    number(counter1);
    number(counter2);
    number(putchar(50089));
    exit(300);
}
