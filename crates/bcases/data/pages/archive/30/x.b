main() { extrn wr.unit; wr.unit = 1; putchar('w'); }
