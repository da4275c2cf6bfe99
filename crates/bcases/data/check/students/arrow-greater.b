main() {
    auto age;
    age = 20;
    if(age => 18)
        putchar('y');
}
