main() { while(1) { if(1) break; } }
