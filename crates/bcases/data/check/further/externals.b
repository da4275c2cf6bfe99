main() {
    x = 1;
}

f() {
    putchar('a');
}
count = 5;

max(a, b) if(a > b) return a; else return b;

g() {
    extrn count
    count++;
}
