main() { auto i;
  while (i < 3) switch (i) {
  case 0: break;
  case 'a': default: if (i) ; else "x";
  }
}
