main() {
    print "Hello";
}
