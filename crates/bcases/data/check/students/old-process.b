main() {
    auto n;
    n = fork();
    if(n == 0) execl("ls");
    wait();
}
