main $(
    auto c;
    c = '$)';
    if(c) goto end;
end:
$)
