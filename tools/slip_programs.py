"""Right programs, each with the runs that show what it does: those of examples/, lib/ and class/, and some that are
made. tools/slips uses it."""
import argparse
import pathlib
import random
import re
from typing import NamedTuple

TOP = pathlib.Path(__file__).resolve().parent.parent
CASES = TOP / "crates/bcases/data"
MOST_RUNS = 4
END = b"/* The end. */\nhandedin() {\n}\n"


class Run(NamedTuple):
    """A run of a program: what it reads, and the files that come after its own one."""

    given: bytes
    files: tuple = ()


class Program(NamedTuple):
    """A source with its edition and its runs. It is checked with the files of the first run."""

    name: str
    text: str
    edition: str
    runs: list


def text_of(path):
    return path.read_text(encoding="latin-1")


def input_of(path):
    return path.with_suffix(".in").read_bytes() if path.with_suffix(".in").exists() else b""


def library(*names):
    return tuple((f"{it}.b", (TOP / f"lib/{it}.b").read_bytes()) for it in names)


def of_examples():
    for path in sorted((TOP / "examples").glob("*.b")):
        words = (CASES / f"examples/{path.stem}.args").read_text().split()
        edition = "2" if "2" in words else "1"
        libraries = [words[at + 1] for at, it in enumerate(words) if it == "--with"]
        yield Program(f"examples/{path.name}", text_of(path), edition,
                      [Run(input_of(CASES / f"examples/{path.name}"), library(*libraries))])


def of_lib():
    """Each file with those programs of lib/cases that name it, and each of these programs."""
    cases = {}
    for path in sorted((TOP / "lib/cases").glob("*.b")):
        names = re.findall(r"(\w+)\.b", path.read_text().partition(":")[0])
        cases[path] = names, input_of(CASES / f"lib/{path.name}")
        yield Program(f"lib/cases/{path.name}", text_of(path), "1", [Run(cases[path][1], library(*names))])
    for path in sorted((TOP / "lib").glob("*.b")):
        runs = [Run(given, ((main.name, main.read_bytes()), *library(*(it for it in names if it != path.stem))))
                for main, (names, given) in cases.items() if path.stem in names]
        yield Program(f"lib/{path.name}", text_of(path), "1", runs[:MOST_RUNS])


def calls_one_of(name, text):
    """Whether a text calls a function of this file of the library, and defines none of its name."""
    defined, called = re.findall(r"(?m)^(\w+)\(", text), re.findall(r"\b(\w+)\(", text)
    own = re.findall(r"(?m)^(\w+)\(", text_of(TOP / f"lib/{name}.b"))
    return bool({*own} & {*called} - {*defined})


def of_class():
    """The right solutions of the exercises, each with its tests."""
    reader = argparse.ArgumentParser(add_help=False)
    reader.add_argument("--edition", default="1")
    reader.add_argument("--steps")
    reader.add_argument("--with", dest="libraries", action="append", default=[])
    reader.add_argument("--taught", action="append", default=[])
    for path in sorted((TOP / "class").glob("*/solutions/right*.b")):
        folder = path.parent.parent
        options = folder / "options"
        asked = reader.parse_args(options.read_text().split() if options.exists() else [])
        text = text_of(path)
        named = re.findall(r"--with (\w+)", text.partition("\n")[0])
        names = dict.fromkeys([*asked.libraries, *named, *(it for it in asked.taught if calls_one_of(it, text))])
        runs = []
        for test in sorted((folder / "tests").glob("*.out"))[:MOST_RUNS]:
            main = test.with_suffix(".b")
            files = library(*names)
            if main.exists():
                files = ("handedin.b", END), (main.name, main.read_bytes()), *files
            runs.append(Run(input_of(test), files))
        yield Program(f"class/{folder.name}/{path.name}", text, asked.edition, runs)


# Programs that are made. Each function of one has a shape, into which names, numbers and operators are drawn.

NOUNS = "total count value start limit first best sum number power level index size width part rest".split()
VERBS = "scale fold mix pick step grade rank shift weigh tell turn move".split()
SHAPES = [
    """/* {Verb}s the numbers below {n}. */
{f}({n}) {{
    auto {a}, {b};

    {a} = {k};
    {b} = 0;
    while({b} < {n}) {{
        {a} = {a} {op} {b};
        {b}++;
    }}
    return({a});
}}
""",
    """/* Gives {k}, {m}, or what is left of {n}. */
{f}({n}) {{
    if({n} == {m})
        return({k});
    else if({n} >= {k} & {n} != 100) {{
        {n} =- {k};
        return({n} {op} {m});
    }}
    return({n} < 0 | {n} == 3 ? {m} : {n} + 1);
}}
""",
    """{f}({n})
    return({n} <= 0 ? {k} : {f}({n} - 1) {op} {m});
""",
    """/* Counts a letter in the string {b}. */
{f}({n}) {{
    auto {a}, {b}, c;

    {a} = 0;
    {b} = "abacus, banana, cabbage";
    while((c = char({b}, {a}++)) != '*e') {{
        if(c == 'a')
            {n}++;
        if(c == ' ')
            {n} = {n} {op} {k};
    }}
    return({n});
}}
""",
    """{f}({n}) {{
    auto {a} {size}, {b};

    {b} = 0;
    while({b} <= {size}) {{
        {a}[{b}] = {b} * {k} {op} {n};
        {b} =+ 1;
    }}
    {b} = {size};
    while({b} > 0) {{
        --{b};
        {a}[{b}] = {a}[{b}] + {a}[{b} + 1];
    }}
    return({a}[0]);
}}
""",
    """/* {Verb}s by the words of table. */
{f}({n}) {{
    extrn table;
    auto {a};

    {a} = {n} & 3;
    {n} = table[{a}] {op} {n};
    table[{a}] = {k};
    return({n});
}}
""",
    """{f}({n}) {{
    auto {a};

    {a} = {k};
    switch {n} {{
    case 1:
        {a} = {m};
        goto done;
    case 2:
    case 4:
        {a} =+ {n};
        goto done;
    }}
    {a} = -{n};
done:
    return({a} {op} {m});
}}
""",
    """/* A row of stars, and what it took. */
{f}({n}) {{
    auto {a}, {b};

    {a} = 0;
    {n} = ({n} & 7) + 1;
    while({n}--) {{
        {b} = {n};
        while({b} >= 0) {{
            putchar('**');
            {b} =- 1;
            {a}++;
        }}
        putchar('*n');
    }}
    return({a} {op} {k});
}}
""",
]
MAIN = """/* Each of them with some numbers. */
main() {{
    extrn seen;
    auto {a};

    {a} = 0;
    while({a} < {size}) {{
{calls}        seen = seen + {a};
        {a}++;
    }}
    {last};
}}

seen {k};
table[3] {m}, {size}, {k}, 7;
"""


def made(number):
    draw = random.Random(f"a program {number}")
    count = draw.randint(2, 4)
    uses_printf = number % 2 == 0
    parts, calls = [], ""
    for verb, shape in zip(draw.sample(VERBS, count), draw.sample(SHAPES, count)):
        names = draw.sample(NOUNS, 3)
        words = dict(f=verb, Verb=verb.capitalize(), n=names[0], a=names[1], b=names[2], k=draw.randint(2, 9),
                     m=draw.randint(10, 60), size=draw.randint(4, 9), op=draw.choice("+-*"))
        parts.append(shape.format(**words))
        calls += (f'        printf("{verb} %d: %d*n", {{a}}, {verb}({{a}}));\n' if uses_printf else
                  f"        printn({verb}({{a}}), 10);\n        putchar(' ');\n")
    words = dict(a=draw.choice("ijk"), k=draw.randint(2, 9), m=draw.randint(10, 60), size=draw.randint(4, 7))
    last = 'printf("%d in all.*n", seen)' if uses_printf else "printn(seen, 10)"
    parts.append(MAIN.format(calls=calls.format(**words), last=last, **words))
    text = "\n".join(parts)
    if number % 3 == 0:
        text = re.sub(r"\n +", " ", text)  # a function in a line
    return Program(f"made/{number}", text, "1", [Run(b"", library("print") if uses_printf else ())])


def programs(count):
    return [*of_examples(), *of_lib(), *of_class(), *map(made, range(1, count + 1))]
