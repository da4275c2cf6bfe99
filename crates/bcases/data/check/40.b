t 'a', x,
  y;
x 3;
