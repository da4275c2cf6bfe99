main() say('x');
/* the
end */