main() { auto c; c = 'k'; if(c >= 'a' & c <= 'z') putchar('l'); }
