main() {
    auto time, hours;
    time = 150;
    hours = time // 60;
    printn(hours, 10);
}
