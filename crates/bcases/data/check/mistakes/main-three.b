main(argc, argv)
{
    extrn names;
    names = argv[argc];
}
names;
mainly(n) return(n);
