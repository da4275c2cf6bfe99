main() { x = 1; } f() { y = 2; }
g() { auto z; z = 3; } h() { u = 4; } k() { v = 5; }
