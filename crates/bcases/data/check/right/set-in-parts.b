main() {
    inner(2);
    before(2);
    orelse(2);
    chosen(2);
    asked(2);
    second(2);
    nested(2);
    around(2);
    selects(2);
    decides(2);
    loops(2);
    settles(2);
}
inner(a) {
    auto b, x;
    while(a--) {
        b = 2;
        while(b--)
            x = 1;
        printn(x, 10);
    }
}
before(a) {
    auto x;
    while(a--) {
        if(a == 0)
            printn(x, 10);
        x = 1;
    }
}
orelse(a) {
    auto x;
    while(a--) {
        if(a == 1)
            putchar('a');
        else
            printn(x, 10);
        x = 1;
    }
}
chosen(a) {
    auto x;
    while(a--) {
        switch a {
            case 0:
                printn(x, 10);
        }
        x = 1;
    }
}
asked(a) {
    auto x;
    while(a--) {
        printn(a ? 1 : x, 10);
        x = 1;
    }
}
second(a) {
    auto b, x;
    while(a--) {
        b = 0;
        if(a)
            b = 1;
        if(b == 0)
            printn(x, 10);
        x = 1;
    }
}
nested(a) {
    auto b, x;
    b = 1;
    while(a--) {
        if(a == 0) {
            if(b)
                b = 0;
            printn(x, 10);
        }
        x = 1;
    }
}
around(a) {
    auto b, x;
    b = 1;
    while(a--) {
        if(a == 0) {
            while(b--)
                putchar('b');
            printn(x, 10);
        }
        x = 1;
    }
}
selects(a) {
    auto x;
    while(a--) {
        if(a == 0) {
            switch a {
                case 1:
                    putchar('c');
            }
            printn(x, 10);
        }
        x = 1;
    }
}
decides(a) {
    auto b, x;
    while(a--) {
        if(a == 0) {
            b = a ? 1 : 2;
            printn(x + b, 10);
        }
        x = 1;
    }
}
loops(a) {
    auto b, x;
    b = 0;
    while(a--) {
        while(b--)
            printn(x, 10);
        b = x = 1;
    }
}
settles(a) {
    auto v 3, x, y, z;
    printn(x = 1, x);
    printn((y = 2) + y, 10);
    v[z = 3] = z;
    printn(v[3] + a, 10);
}
