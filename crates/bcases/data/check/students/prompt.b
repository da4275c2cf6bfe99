main() {
    auto name;
    name = prompt("Name?");
    printn(name, 10);
}
