main() {   # the generation of all
    auto generation;  # another generation, for (each) line
    generation = '#';
    printn(generation, 10); # until it ends && so on
}
