"""Large inputs for tools/quick-trial: sources and code texts, drawn from a fixed seed."""
import pathlib
import random
import subprocess

SEED = 1972
FEW = ["a", "b", "c", "i", "v[i]", "e1", "e2", "0177", "'x'", "42", "1000", "*a"]
OPERATORS = ["+", "-", "*", "&", "|", "<", "==", ">="]
LOOP = """mix(a, b) { if (a & 1) return(a + b); return(a - b); }
main() {
    auto i, s, v 100;
    i = s = 0;
    while (1) { v[i % 100] = mix(s, i); s =+ v[(i + 7) % 100] & 511; i = i + 1 & 1023; }
}
"""
MAIN = "e1 1; e2 2;\nmain() return(0);\n"


class Drawn:
    """What is drawn of one seed."""

    def __init__(self):
        self.random = random.Random(SEED)

    def value(self, levels):
        """An expression of at most so many levels."""
        which = self.random.randrange(6) if levels else 0
        if which < 2:
            return self.random.choice(FEW)
        if which < 4:
            return f"{self.value(levels - 1)} {self.random.choice(OPERATORS)} {self.value(levels - 1)}"
        if which == 4:
            return f"({self.value(levels - 1)})"
        return f"fn{self.random.randrange(30)}({self.value(levels - 1)}, {self.value(levels - 1)})"

    def statement(self, levels, blanks):
        """A statement in lines that begin with so many blanks."""
        which, inner = self.random.randrange(8 if levels else 4), lambda: self.statement(levels - 1, blanks + "  ")
        if which < 2:
            return f"{blanks}{self.random.choice(FEW[:7])} {self.random.choice(['=', '=+', '=-'])} {self.value(2)};\n"
        if which == 2:
            return f"{blanks}{self.random.choice(['i++', 'b--', '++e2'])};\n"
        if which == 3:
            return f"{blanks}fn{self.random.randrange(30)}({self.value(1)});\n"
        if which == 4:
            return f"{blanks}if ({self.value(1)}) {{\n{inner()}{blanks}}} else\n{inner()}"
        if which == 5:
            return f"{blanks}while ({self.value(1)}) {{\n{inner()}{inner()}{blanks}}}\n"
        if which == 6:
            cases = "".join(f"{blanks}case {it}:\n{inner()}" for it in range(self.random.randrange(2, 5)))
            return f"{blanks}switch {self.value(1)} {{\n{cases}{blanks}}}\n"
        return f"{blanks}if ({self.value(2)}) return({self.value(1)});\n"

    def body(self):
        lines = "".join(self.statement(3, "  ") for _ in range(self.random.randrange(4, 9)))
        return f"(a, b, c) {{\n  extrn e1, e2;\n  auto i, v 10;\n{lines}  return(a + b);\n}}\n"


def repeated(piece, size):
    """Pieces, each made of its number, up to a size."""
    made, length = [], 0
    while length < size:
        made.append(piece(len(made)))
        length += len(made[-1])
    return made


def functions(size):
    drawn = Drawn()
    bodies = [drawn.body() for _ in range(100)]
    called = "".join(f"fn{it}(a, b) return(a * {it} + b);\n" for it in range(30))
    return called + MAIN + "".join(repeated(lambda it: f"q{it}{bodies[it * 37 % 100]}", size))


def externals(size):
    draw = random.Random(SEED).choice
    values = [", ".join(draw(["7", "65535", "'a'", "0777", "main", "q1"]) for _ in range(it)) for it in range(1, 150)]
    return "".join(repeated(lambda it: f"q{it}[{it % 200}] {values[it * 31 % 149]};\n", size))


def comments(size):
    return functions(size // 4).replace("\n", "   /* a remark of some words, with a * and a / */\n")


def strings(size):
    return "".join(repeated(lambda it: f'q{it} "{"some text of a string " * (it % 6)}*n", 5, "{it}";\n', size))


def names(size):
    """New names alone, in no order."""
    order = list(range(int(size / 8)))
    random.Random(SEED).shuffle(order)
    return "".join(f"n{it};\n" for it in order)


def mentions(size):
    """A code text of many names, and functions that mention them in no order."""
    draw = random.Random(SEED).choice
    known = [f"n{it}" for it in range(60000)]
    lines = 4096
    asks = repeated(lambda it: f"F f{it} 0 0 0 0 {lines}\n" + "".join(f"x {draw(known)}\n" for _ in range(lines)), size)
    return "".join(f"X {it} 0 0\n" for it in known) + "".join(asks) + "F main 0 0 0 0 2\nc 0\nr\nE\n"


# Each input: its name, its group, what makes its text, whether that is compiled first, and the words; FILE is the text.
INPUTS = [
    ("run", "run", lambda size: LOOP, False, ["go", "--steps", "60000000", "FILE"]),
    ("compile-functions", "compile", functions, False, ["compile"]),
    ("compile-externals", "compile", externals, False, ["compile"]),
    ("compile-comments", "compile", comments, False, ["compile"]),
    ("compile-strings", "compile", strings, False, ["compile"]),
    ("compile-names", "compile", lambda size: names(size / 7), False, ["compile"]),
    ("compile-many-names", "compile", names, False, ["compile"]),
    ("load", "load", functions, True, ["run", "FILE"]),
    ("load-names", "load", mentions, False, ["run", "FILE"]),
    ("go", "load", functions, False, ["go", "FILE"]),
    ("migrate", "load", functions, True, ["migrate"]),
]


def made(path, program, text, is_code):
    """A file with a text, or with the code that the program makes of it."""
    if path.exists():
        return
    part = path.with_suffix(".part")
    part.write_text(text())
    if is_code:
        source = part.rename(path.with_suffix(".b"))
        with open(source, "rb") as given, open(part, "wb") as out:
            subprocess.run([program, "compile"], stdin=given, stdout=out, check=True)
    part.rename(path)


def ready(folder, program, megabytes):
    """Each input, with what makes its file and gives its words and what it reads."""
    room = pathlib.Path(folder)
    room.mkdir(parents=True, exist_ok=True)
    for name, group, text, is_code, words in INPUTS:
        def files(name=name, text=text, is_code=is_code, words=words):
            path = room / f"{name}-{megabytes:g}.text"
            made(path, program, lambda: text(int(megabytes * 1e6)), is_code)
            if words[-1] == "FILE":
                return [*words[:-1], str(path)], "/dev/null"
            return words, str(path)
        yield name, group, files
