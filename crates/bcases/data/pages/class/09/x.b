main() {
    auto age;
    putstr("Your age?*n");
    getnum(&age);
    printn(age + 1, 10);
}
