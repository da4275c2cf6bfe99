/* Wrong: break is a statement of edition 2. */
/* Told: in edition 1 break is a name, neither declared nor a label */
days(month) {
    auto n;

    n = 0;
    switch month {
        case 2:
            n = 28;
            break;
        case 4: case 6: case 9: case 11:
            n = 30;
            break;
        case 1: case 3: case 5: case 7: case 8: case 10: case 12:
            n = 31;
    }
    return(n);
}
