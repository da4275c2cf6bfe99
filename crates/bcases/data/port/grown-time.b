time[2] 23, 59, 59;
main() {
    extrn time;
    printn((time[0] * 60 + time[1]) * 60 + time[2], 10);
}
