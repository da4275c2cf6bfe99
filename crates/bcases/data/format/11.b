main() {
 x =/ *p; y = - --x; z = x - -y; x = ! = y;
 a=/*c*/b; }
