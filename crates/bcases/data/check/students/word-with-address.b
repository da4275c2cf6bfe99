buffer;
room[10];
main() {
    extrn buffer, room;
    buffer = room;
    buffer[3] = 1;
    printn(room[3], 10);
}
