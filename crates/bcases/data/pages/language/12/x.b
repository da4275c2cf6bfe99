five() return(5);
none() return;
last() five();

main() {
    printn(five(), 10);
    printn(none(), 10);
    printn(last(), 10);
}
