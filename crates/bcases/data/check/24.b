f(b) { a: b; a: ; }
