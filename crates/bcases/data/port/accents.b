main() { auto w; w = `gcos`; return w; }
