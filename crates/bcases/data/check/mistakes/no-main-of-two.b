count;

line() {
    extrn count;
    count++;
}

lines() {
    line();
    line();
}
