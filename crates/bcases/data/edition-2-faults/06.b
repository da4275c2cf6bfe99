f() switch 1 { default: switch 2 { default: ; }
default: ; }