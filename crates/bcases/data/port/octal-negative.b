low -0100;
v[] { -010, -08, -1 };
main() { extrn low, v; switch(v[0]) { case -010: printn(low, 10); } }
