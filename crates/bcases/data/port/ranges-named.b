manifest LOW = 'a', HIGH = 'c';
main() switch(getchar()) { case LOW::HIGH: exit(); }
