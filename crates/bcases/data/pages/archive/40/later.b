// Squares, in a later form.
main() {
    auto i, squares_of[3];

    for(i = 0; i < 4; i += 1)
        squares_of[i] = i * i;
    if(squares_of[3] == 9 && squares_of[2] == 4)
        printf("The last one is %d.\n", squares_of[3]);
}
