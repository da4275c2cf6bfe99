int main() {
    return 0;
}

void show(int n) {
    printn(n, 10);
}

int twice(int n) {
    return n * 2;
}

show2(n) {
    printn(n, 10);
}
