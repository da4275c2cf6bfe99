main()
{
    auto i;
    i = 3;
again:  {
    i--;
}
    if(i)
        goto again;
