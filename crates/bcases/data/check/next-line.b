main() {
  x
  = 5;
}
