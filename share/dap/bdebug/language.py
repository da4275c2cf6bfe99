"""The words of B, its binary operators, and what each letter after a `*` in quotes stands for. Written by tools/editors."""
KEYWORDS = ['auto', 'extrn', 'case', 'if', 'else', 'while', 'switch', 'goto', 'return']
BINARY = ['|', '&', '==', '!=', '<', '<=', '>', '>=', '<<', '>>', '-', '+', '%', '*', '/']
ESCAPES = {'0': 0, 'e': 4, '(': 123, ')': 125, 'n': 10, 't': 9, '*': 42, "'": 39, '"': 34}
