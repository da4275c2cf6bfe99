main() {
    auto x;
    x = getchar()
    end
}
