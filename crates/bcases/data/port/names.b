firstname_of(x) return(x);
firstname 3;
main() { extrn firstname, wr.unit; printn(firstname_of(firstname), 10); wr.unit = firstnam; }
firstnam(a) return(a);
