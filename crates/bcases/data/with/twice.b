twice(c) { say(c); say(c); }
