main() { auto i; i = 3; do i--; while(i); }
