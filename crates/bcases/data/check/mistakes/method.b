main() {
    System.out.println("hi");
}
