a;
default;