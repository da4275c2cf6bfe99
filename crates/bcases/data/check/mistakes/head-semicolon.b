cube(n);
{
    return(n * n * n);
}
