"""Compiles Pebble, a small language, for the machine of B: `python3 pebble.py FILE` writes FILE.code, FILE.lines and
FILE.names.

docs/AUTHORS.md tells how it was made. `print.code` beside this file, or the file that is named after FILE, is the code
text of B's `lib/print.b`, whose `putstr` writes a text."""
import pathlib
import re
import sys

from bcode import Code, CodeError

TOKEN = re.compile(r'\s*(\d+|[a-z]\w*|"[^"]*"|<=|>=|==|!=|[-+*/%<>=(),])')
RANKS = [("==", "!=", "<", "<=", ">", ">="), ("+", "-"), ("*", "/", "%")]


class Line:
    """The tokens of a line, from the left, each with its column in bytes."""

    def __init__(self, text):
        self.left, at = [], 0
        text = text.split("#")[0].rstrip()
        while at < len(text):
            found = TOKEN.match(text, at)
            if not found:
                raise CodeError(f"no token begins with {text[at:].strip()[0]!r}")
            self.left.append((found[1], len(text[:found.start(1)].encode()) + 1))
            at = found.end()

    @property
    def next(self):
        return self.left[0][0] if self.left else "the end of the line"

    @property
    def column(self):
        return self.left[0][1] if self.left else 0

    def take(self, wanted=None):
        if not self.left or wanted and self.next != wanted:
            raise CodeError(f"{wanted or 'an expression'} is wanted before {self.next}")
        return self.left.pop(0)[0]


class Compiler:
    def __init__(self):
        self.code, self.function, self.names, self.open = Code(), None, {}, []

    def compile(self, source):
        for at, text in enumerate(source.splitlines(), 1):
            self.code.line, line = at, Line(text)
            if line.left:
                self.statement(line)
                if line.left:
                    raise CodeError(f"{line.next} is left on the line")
        if self.open:
            raise CodeError("an end is missing")

    def statement(self, line):
        word = line.next
        if word in ("def", "let", "if", "else", "while", "print", "return", "end"):
            line.take()
            return getattr(self, f"take_{word}")(line)
        self.expression(line)
        return self.inside.drop()

    @property
    def inside(self):
        if not self.function:
            raise CodeError("this stands outside of a function")
        return self.function

    def take_def(self, line):
        if self.function:
            raise CodeError("a def stands within another one")
        name, names = line.take(), []
        line.take("(")
        while line.next != ")":
            names.append(line.take())
            if line.next != ")":
                line.take(",")
        line.take(")")
        self.function = self.code.function(name, names)
        self.names = {it: index for index, it in enumerate(names)}
        self.open.append(("def", self.end_def))

    def end_def(self):
        self.function.end()
        self.function = None

    def take_let(self, line):
        name = line.take()
        if name not in self.names:
            self.names[name] = self.inside.words(1, name)
        self.inside.automatic(self.names[name])
        line.take("=")
        self.expression(line)
        self.inside.store()
        self.inside.drop()

    def take_if(self, line):
        self.expression(line)
        place = self.inside.jump_if_zero()
        self.open.append(("if", lambda: self.function.put(place)))

    def take_else(self, line):
        if not self.open or self.open[-1][0] != "if":
            raise CodeError("there is no if for this else")
        place = self.inside.jump()
        self.open.pop()[1]()
        self.open.append(("else", lambda: self.function.put(place)))

    def take_while(self, line):
        top = self.inside.here
        self.expression(line)
        place = self.inside.jump_if_zero()

        def end_while():
            self.function.jump(top)
            self.function.put(place)

        self.open.append(("while", end_while))

    def take_end(self, line):
        if not self.open:
            raise CodeError("there is nothing to end")
        self.open.pop()[1]()

    def take_print(self, line):
        if line.next.startswith('"'):
            self.inside.variable("putstr")
            self.inside.text(line.take()[1:-1])
            self.inside.call_with(1)
        else:
            self.inside.variable("printn")
            self.expression(line)
            self.inside.constant(10)
            self.inside.call_with(2)
        self.inside.drop()
        self.inside.call("putchar", ord("\n"))
        self.inside.drop()

    def take_return(self, line):
        self.expression(line)
        self.inside.give()

    def expression(self, line, rank=0):
        if rank == len(RANKS):
            return self.operand(line)
        self.expression(line, rank + 1)
        while line.next in RANKS[rank]:
            column, sign = line.column, line.take()
            self.expression(line, rank + 1)
            self.code.column = column
            self.inside.binary(sign)

    def operand(self, line):
        self.code.column = line.column
        token = line.take()
        if token.isdigit():
            self.inside.constant(int(token))
        elif token == "-":
            self.operand(line)
            self.inside.negate()
        elif token == "(":
            self.expression(line)
            line.take(")")
        elif line.next == "(":
            self.call(token, line)
        elif token in self.names:
            self.inside.variable(self.names[token])
        else:
            raise CodeError(f"{token} has no value yet: let {token} = ..")

    def call(self, name, line):
        self.inside.variable(name)
        column, count = self.code.column, 0
        line.take("(")
        while line.next != ")":
            self.expression(line)
            count += 1
            if line.next != ")":
                line.take(",")
        line.take(")")
        self.code.column = column
        self.inside.call_with(count)


def main(source, library=pathlib.Path(__file__).with_name("print.code")):
    source, compiler = pathlib.Path(source), Compiler()
    try:
        compiler.compile(source.read_text())
        compiler.code.take(pathlib.Path(library).read_bytes())
        code = compiler.code.text()
    except CodeError as fault:
        sys.exit(f"{source}:{fault.line or compiler.code.line}: {fault}")
    except OSError as fault:
        sys.exit(f"{fault.filename}: {fault.strerror}")
    source.with_suffix(".code").write_bytes(code)
    source.with_suffix(".lines").write_bytes(compiler.code.lines())
    source.with_suffix(".names").write_bytes(compiler.code.names())


if not 2 <= len(sys.argv) <= 3:
    sys.exit("usage: python3 pebble.py FILE [print.code]")
main(*sys.argv[1:])
