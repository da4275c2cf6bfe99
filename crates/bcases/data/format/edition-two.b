main() {
auto n;
n = 3;
switch n { case 1: n = 2; default: n = 4; n = 5; }
}
