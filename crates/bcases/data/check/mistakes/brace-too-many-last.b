main() {
    }
}
