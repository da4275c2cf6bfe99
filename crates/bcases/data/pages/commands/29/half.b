main()
    assert(7 % 2 == 0, "half of an odd number");
