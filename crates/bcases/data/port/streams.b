main $(
    extrn read, write;
    auto c;
    while((c = read()) != 4)
        write(c);
$)
