n 5; main() { extrn n; f(); printn(n, 10); }
f() extrn n; switch 1 { case 2: n++; default:
switch 1 { case 2: n++; default:
switch 1 { case 2: n++; default:
switch 1 { case 2: n++; default:
switch 1 { case 2: n++; default:
switch 1 { case 2: n++; default:
switch 1 { case 2: n++; default:
switch 1 { case 2: n++; default:
switch 1 { case 2: n++; default:
switch 1 { case 2: n++; default:
switch 1 { case 2: n++; default:
switch 1 { case 2: n++; default:
switch 1 { case 2: n++; default:
switch 1 { case 2: n++; default:
switch 1 { case 2: n++; default:
switch 1 { case 2: n++; default:
switch 1 { case 2: n++; default:
switch 1 { case 2: n++; default:
switch 1 { case 2: n++; default:
switch 1 { case 2: n++; default:
switch 1 { case 2: n++; default:
switch 1 { case 2: n++; default:
switch 1 { case 2: n++; default:
switch 1 { case 2: n++; default:
switch 1 { case 2: n++; default:
switch 1 { case 2: n++; default:
switch 1 { case 2: n++; default:
switch 1 { case 2: n++; default:
switch 1 { case 2: n++; default:
switch 1 { case 2: n++; default:
switch 1 { case 2: n++; default:
switch 1 { case 2: n++; default:
switch 1 { case 2: n++; default:
switch 1 { case 2: n++; default:
switch 1 { case 2: n++; default:
switch 1 { case 2: n++; default:
switch 1 { case 2: n++; default:
switch 1 { case 2: n++; default:
switch 1 { case 2: n++; default:
switch 1 { case 2: n++; default:
switch 1 { case 2: n++; default:
switch 1 { case 2: n++; default:
switch 1 { case 2: n++; default:
switch 1 { case 2: n++; default:
switch 1 { case 2: n++; default:
switch 1 { case 2: n++; default:
switch 1 { case 2: n++; default:
switch 1 { case 2: n++; default:
switch 1 { case 2: n++; default:
switch 1 { case 2: n++; default:
switch 1 { case 2: n++; default:
switch 1 { case 2: n++; default:
switch 1 { case 2: n++; default:
switch 1 { case 2: n++; default:
switch 1 { case 2: n++; default:
switch 1 { case 2: n++; default:
switch 1 { case 2: n++; default:
switch 1 { case 2: n++; default:
switch 1 { case 2: n++; default:
switch 1 { case 2: n++; default:
switch 1 { case 2: n++; default:
switch 1 { case 2: n++; default:
switch 1 { case 2: n++; default:
switch 1 { case 2: n++; default:
switch 1 { case 2: n++; default:
switch 1 { case 2: n++; default:
switch 1 { case 2: n++; default:
switch 1 { case 2: n++; default:
switch 1 { case 2: n++; default:
switch 1 { case 2: n++; default:
switch 1 { case 2: n++; default:
switch 1 { case 2: n++; default:
switch 1 { case 2: n++; default:
switch 1 { case 2: n++; default:
switch 1 { case 2: n++; default:
switch 1 { case 2: n++; default:
switch 1 { case 2: n++; default:
switch 1 { case 2: n++; default:
switch 1 { case 2: n++; default:
switch 1 { case 2: n++; default:
switch 1 { case 2: n++; default:
switch 1 { case 2: n++; default:
switch 1 { case 2: n++; default:
switch 1 { case 2: n++; default:
switch 1 { case 2: n++; default:
switch 1 { case 2: n++; default:
switch 1 { case 2: n++; default:
switch 1 { case 2: n++; default:
switch 1 { case 2: n++; default:
switch 1 { case 2: n++; default:
switch 1 { case 2: n++; default:
switch 1 { case 2: n++; default:
switch 1 { case 2: n++; default:
switch 1 { case 2: n++; default:
switch 1 { case 2: n++; default:
switch 1 { case 2: n++; default:
switch 1 { case 2: n++; default:
switch 1 { case 2: n++; default:
switch 1 { case 2: n++; default:
switch 1 { case 2: n++; default:
switch 1 { case 2: n++; default:
switch 1 { case 2: n++; default:
switch 1 { case 2: n++; default:
switch 1 { case 2: n++; default:
switch 1 { case 2: n++; default:
switch 1 { case 2: n++; default:
switch 1 { case 2: n++; default:
switch 1 { case 2: n++; default:
switch 1 { case 2: n++; default:
switch 1 { case 2: n++; default:
switch 1 { case 2: n++; default:
switch 1 { case 2: n++; default:
switch 1 { case 2: n++; default:
switch 1 { case 2: n++; default:
switch 1 { case 2: n++; default:
switch 1 { case 2: n++; default:
switch 1 { case 2: n++; default:
switch 1 { case 2: n++; default:
switch 1 { case 2: n++; default:
switch 1 { case 2: n++; default:
switch 1 { case 2: n++; default:
switch 1 { case 2: n++; default:
switch 1 { case 2: n++; default:
switch 1 { case 2: n++; default:
switch 1 { case 2: n++; default:
switch 1 { case 2: n++; default:
switch 1 { case 2: n++; default:
switch 1 { case 2: n++; default:
switch 1 { case 2: n++; default:
switch 1 { case 2: n++; default:
switch 1 { case 2: n++; default:
switch 1 { case 2: n++; default:
switch 1 { case 2: n++; default:
switch 1 { case 2: n++; default:
switch 1 { case 2: n++; default:
switch 1 { case 2: n++; default:
switch 1 { case 2: n++; default:
switch 1 { case 2: n++; default:
switch 1 { case 2: n++; default:
switch 1 { case 2: n++; default:
switch 1 { case 2: n++; default:
switch 1 { case 2: n++; default:
switch 1 { case 2: n++; default:
switch 1 { case 2: n++; default:
switch 1 { case 2: n++; default:
switch 1 { case 2: n++; default:
switch 1 { case 2: n++; default:
switch 1 { case 2: n++; default:
switch 1 { case 2: n++; default:
switch 1 { case 2: n++; default:
switch 1 { case 2: n++; default:
switch 1 { case 2: n++; default:
switch 1 { case 2: n++; default:
switch 1 { case 2: n++; default:
switch 1 { case 2: n++; default:
switch 1 { case 2: n++; default:
switch 1 { case 2: n++; default:
switch 1 { case 2: n++; default:
switch 1 { case 2: n++; default:
switch 1 { case 2: n++; default:
switch 1 { case 2: n++; default:
switch 1 { case 2: n++; default:
switch 1 { case 2: n++; default:
switch 1 { case 2: n++; default:
switch 1 { case 2: n++; default:
switch 1 { case 2: n++; default:
switch 1 { case 2: n++; default:
switch 1 { case 2: n++; default:
switch 1 { case 2: n++; default:
switch 1 { case 2: n++; default:
switch 1 { case 2: n++; default:
switch 1 { case 2: n++; default:
switch 1 { case 2: n++; default:
switch 1 { case 2: n++; default:
switch 1 { case 2: n++; default:
switch 1 { case 2: n++; default:
switch 1 { case 2: n++; default:
switch 1 { case 2: n++; default:
switch 1 { case 2: n++; default:
switch 1 { case 2: n++; default:
switch 1 { case 2: n++; default:
switch 1 { case 2: n++; default:
switch 1 { case 2: n++; default:
switch 1 { case 2: n++; default:
switch 1 { case 2: n++; default:
switch 1 { case 2: n++; default:
switch 1 { case 2: n++; default:
switch 1 { case 2: n++; default:
switch 1 { case 2: n++; default:
switch 1 { case 2: n++; default:
switch 1 { case 2: n++; default:
switch 1 { case 2: n++; default:
switch 1 { case 2: n++; default:
switch 1 { case 2: n++; default:
switch 1 { case 2: n++; default:
switch 1 { case 2: n++; default:
switch 1 { case 2: n++; default:
switch 1 { case 2: n++; default:
switch 1 { case 2: n++; default:
switch 1 { case 2: n++; default:
n++;
break; }
break; }
break; }
break; }
break; }
break; }
break; }
break; }
break; }
break; }
break; }
break; }
break; }
break; }
break; }
break; }
break; }
break; }
break; }
break; }
break; }
break; }
break; }
break; }
break; }
break; }
break; }
break; }
break; }
break; }
break; }
break; }
break; }
break; }
break; }
break; }
break; }
break; }
break; }
break; }
break; }
break; }
break; }
break; }
break; }
break; }
break; }
break; }
break; }
break; }
break; }
break; }
break; }
break; }
break; }
break; }
break; }
break; }
break; }
break; }
break; }
break; }
break; }
break; }
break; }
break; }
break; }
break; }
break; }
break; }
break; }
break; }
break; }
break; }
break; }
break; }
break; }
break; }
break; }
break; }
break; }
break; }
break; }
break; }
break; }
break; }
break; }
break; }
break; }
break; }
break; }
break; }
break; }
break; }
break; }
break; }
break; }
break; }
break; }
break; }
break; }
break; }
break; }
break; }
break; }
break; }
break; }
break; }
break; }
break; }
break; }
break; }
break; }
break; }
break; }
break; }
break; }
break; }
break; }
break; }
break; }
break; }
break; }
break; }
break; }
break; }
break; }
break; }
break; }
break; }
break; }
break; }
break; }
break; }
break; }
break; }
break; }
break; }
break; }
break; }
break; }
break; }
break; }
break; }
break; }
break; }
break; }
break; }
break; }
break; }
break; }
break; }
break; }
break; }
break; }
break; }
break; }
break; }
break; }
break; }
break; }
break; }
break; }
break; }
break; }
break; }
break; }
break; }
break; }
break; }
break; }
break; }
break; }
break; }
break; }
break; }
break; }
break; }
break; }
break; }
break; }
break; }
break; }
break; }
break; }
break; }
break; }
break; }
break; }
break; }
break; }
break; }
break; }
break; }
break; }
break; }
break; }
break; }
break; }
break; }
