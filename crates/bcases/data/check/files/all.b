/* the whole file
