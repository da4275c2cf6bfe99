main()
$(  auto n;
    n = 5;
    until(n < 2 | n == 9)
    $(  n =- 1;
        unless(n % 2) next;
        putchar('0' + n);
    $)
    unless(n > 1) putchar('y'); else putchar('n');
    until(n++ > 3) unless(n == 3) putchar('*n');
$)
