"""Tries b.py with the library: worked rows, errors and rooms, and each kept case of the commands that have a call.

  B_LIBRARY=LIBRARY PYTHONPATH=FOLDER python3 try.py CASES VERSION

CASES is the folder of kept cases, whose README.md tells their files, and VERSION what the program `b` says of its
own."""
import contextlib
import pathlib
import resource
import signal
import sys
import threading
import time
from random import Random
from typing import Dict, List, NamedTuple

import b

ECHO = b"main() { auto c; while((c = getchar()) != '*e') putchar(c); exit(3); }"
STUCK = b"trap sk\nat     in main     place    0  line    2  step 1\n    p\n  means: too few operands\n"
ONE_TOO_MANY = b"code 4\nat     line    4\n    E\n  wanted: an instruction, 3 of 3 of main\n"
UNDEFINED = b"load 3\nat     line    3\n    x prnt\n  means: prnt is neither defined nor in the library\n"
COMMANDS = ("go", "run", "run_where", "compile", "check", "format", "list", "map", "trace", "count", "show")
MOST = 2**64 - 1
ROOM = 1 << 20


def error_of(call, *words, **named):
    try:
        call(*words, **named)
    except b.Error as error:
        return error.status, error.line, error.output
    return None


def is_refused(call, *words, **named):
    """Whether a number that isn't in its range is a ValueError."""
    try:
        call(*words, **named)
    except ValueError:
        return True
    return False


def texts_and_numbers():
    """What is found and what is wanted, of each kind of text, of an output of some length and of each wrong number."""
    source = b"main() { printn(6*7, 10); }"
    for text in (source.decode(), bytearray(source), memoryview(source)):
        yield b.go(text), (b"42", 0)
    yield b.go("main() { /* \u00e9 */ printn(42, 10); }"), (b"42", 0)
    yield b.go(ECHO, "\u20ac"), ("\u20ac".encode(), 3)
    yield b.go(b"main() { auto n; n = 40000; while(n--) { putchar('ab'); putchar('cd'); } }"), (b"abcd" * 40000, 0)
    for steps in (-1, 2**64):
        yield is_refused(b.go, source, steps=steps), True
        yield is_refused(b.run, b"E\n", steps=steps), True
    for call in (b.compile, b.go, b.check, b.format, b.list, b.map, b.trace, b.count, b.show):
        for edition in (0, 3, 257):
            yield is_refused(call, source, edition=edition), True
    yield is_refused(b.go, source, room=-1), True
    for call in (b.trace, b.show):
        for named in ({"start": 0}, {"start": 2**64}, {"last": 0}, {"last": -1}, {"steps": -1}, {"steps": 2**64}):
            yield is_refused(call, source, **named), True
    yield is_refused(b.count, source, steps=2**64), True
    yield b.go("main() { printn(six() * 7, 10); }", libs={"six.b": bytearray(b"six() { return(6); }")}), (b"42", 0)


def with_files():
    """What is found and what is wanted, of calls with files that follow a source, and of those that show its run."""
    source, libs = "main() { printn(six(), 10); }", {"six.b": "six() {\n  return(6);\n}"}
    yield b.go(source, libs=libs), (b"6", 0)
    yield b.compile(source, libs=libs), b.compile(f"{source}\n{libs['six.b']}")
    yield error_of(b.go, source), (b.REFUSED, b"load 3\n", b"")
    yield error_of(b.go, source, libs={b"\xff": ""}), (b.WRONG_EDITION, b"", b"")
    yield [it["file"] for it in b.check(source, libs={"six.b": "six() { return(x); }"})], ["six.b"]
    yield b.list(source, libs=libs), b.list(f"{source}\n{libs['six.b']}")
    yield b.map(source, libs=libs), b.map(f"{source}\n{libs['six.b']}")
    faulty = {"six.b": "six() {\n return(6); }\nseven() { return(x); }"}
    for call in (b.trace, b.count, b.show):
        yield error_of(call, source, libs=faulty), (b.FAULT, b"un x 4\nat     line 3 of six.b\n", b"")
    long = {"s" * 5000: libs["six.b"].replace("6", "x")}
    yield error_of(b.trace, source, libs=long)[1], b"un x 3\nat     line 2 of %s\n" % (b"s" * 5000)
    rows = error_of(b.trace, "main() { auto x; x = 1; x = 2; x = 3; }", start=4, steps=6)[2].splitlines()
    yield [row.split()[0] for row in rows[1:4]], [b"4", b"5", b"6"]
    yield error_of(b.trace, "main() { 1/0; }", last=1)[:2], (b.TRAP, b"trap dz\n")
    yield b.count("main() { exit(3); }", as_json=True).status, 3
    yield b.show(source, libs=libs).startswith(b"<!doctype html>"), True


def rows():
    """What is found and what is wanted, of each row."""
    yield b.go(b"main() { printn(6*7, 10); }"), (b"42", 0)
    yield b.go(ECHO, b"some\0text"), (b"some\0text", 3)
    yield b.go(b"main() { exit(1); }"), (b"", 1)
    yield b.run(b.compile(ECHO), b"some text"), (b"some text", 3)
    yield b.compile(ECHO, room=1), b.compile(ECHO)
    yield b.migrate(b.compile(ECHO), room=1), b.compile(ECHO, edition=2)
    yield error_of(b.migrate, b"F"), (b.REFUSED, b"code 1\n", b"B 2\n")
    yield error_of(b.go, b"main() { return(x); }"), (b.FAULT, b"un x 1\n", b"")
    yield error_of(b.go, b"main() { printn(7, 10); printn(1/0, 10); }"), (b.TRAP, b"trap dz\n", b"7")
    yield error_of(b.go, b"main() { while(1); }", steps=1000), (b.LIMIT, b"limit\n", b"")
    yield error_of(b.run, b"F"), (b.REFUSED, b"code 1\n", b"")
    yield error_of(b.go, b"main() { printn(42, 10); }", room=1), (b.FAILED, b"", b"4")
    yield b.run(b.compile(ECHO), b"some text", where=True), (b"some text", 3)
    yield error_of(b.run, b"F main 0 0 0 0 1\np\nE\n", where=True), (b.TRAP, STUCK, b"")
    yield error_of(b.run, b"F main 0 0 0 0 3\nc 1\nr\nE\n", where=True), (b.REFUSED, ONE_TOO_MANY, b"")
    yield error_of(b.run, b"B 2\nF main 0 0 0 0 4\nx prnt\nv\nk 0\nr\nE\n", where=True), (b.REFUSED, UNDEFINED, b"")
    yield b.check(b"main() { printn(6*7, 10); }"), []
    yield places(b"main() {\n  return(x);\n}"), [(2, 10, "error", "un")]
    yield places(b"main() { foo(1); }", room=1), [(1, 10, "error", "load 3")]
    yield b.format(b"main(){return(1);}", room=1), b"main() {\n    return(1);\n}\n"
    yield error_of(b.format, b"main() { 'abc'; }"), (b.FAULT, b"ct 1\n", b"")
    yield b.version(), sys.argv[2]


def places(source, **named):
    """Line, column, severity and code of each finding."""
    names = ("line", "column", "severity", "code")
    return [tuple(finding[name] for name in names) for finding in b.check(source, **named)]


def sessions():
    """What is found of sessions, and what is wanted."""
    told, source = [], "n; main() { extrn n; auto c; while((c = getchar()) != '*e') { n++; putchar(c + 1); } exit(n); }"
    with b.Session(source) as it:
        yield it.go_on(1).why, "limit"
        yield it.go_on().why, "wants input"
        it.feed("HA")
        yield (it.go_on().why, it.output(), it.word(7)), ("wants input", b"IB", 2)
        it.set_word(7, 5)
        read = iter(["L", b""])
        yield it.run(lambda: next(read), told.append), b.End("halted", 6)
        yield b"".join(told), b"M"
        it.start("Z")
        yield len([place for place in it if place.callers == 0]) > 5, True
        yield refused(it.go_on, -1), ValueError
        it.close_input()
        yield refused(it.feed, "x"), ValueError
    yield refused(it.go_on), ValueError
    yield b.Session(code="F main 0 0 0 0 3\nc 1\nc 0\nb /\nE\n").run(), b.End("trapped", trap="dz")
    yield b.Session("main() { while(1) ; }").run(steps=3_000_001).why, "limit"
    yield refused(b.Session, "main() {"), b.Error
    yield error_of(b.Session, "v[32766]; w[32758]; main() { auto a; ; }"), (b.TRAP, b"trap st\n", b"")
    yield refused(b.Session, code="E"), b.Error
    it = b.Session("main() { while(1) ; }")
    for steps in (0, 1, 0):
        yield (it.go_on(steps), it.run(steps=steps)), (b.End("limit"), b.End("limit"))
    yield it.place().steps, 2
    for steps in (-1, 2**64):
        yield refused(it.run, steps=steps), ValueError
    for edition in (0, 3, 257):
        yield refused(b.Session, "main() ;", edition=edition), ValueError
    for address, word in ((-1, 0), (65536, 0), (0, -1), (0, 65536)):
        yield refused(it.set_word, address, word), ValueError
    yield interrupted() < 0.05, True
    yield from lost()
    yield from loads()
    yield from symbols()
    yield from ignored()
    yield from stops()
    yield from limits()
    yield from raised()
    yield from copies()
    yield from copies_at_random()


RAISES = pathlib.Path(__file__).resolve().parents[2] / "lib/raise.b"


def raised():
    """Ends by `raise`: with its text, and the nearest caller that has a line of the source itself."""
    libs = {"at.b": 'at(i)\n  raise("no index", i + 128);\nnone() at(5);', "raise.b": RAISES.read_bytes()}

    def told(source, **more):
        end = b.Session(source, libs={**libs, **more}).run()
        place = end.at and (end.at.name, end.at.line, end.at.file, end.at.file_line)
        return end.why, end.status, end.text, place

    yield told("main() {\n  at(3);\n}"), ("halted", 3, b"no index", ("main", 2, "", 2))
    yield told('main()\n\nraise("", 1);'), ("halted", 1, b"", ("main", 3, "", 3))
    yield told("main()\n  f(3);\nf(n)\n  n ? f(n - 1) : at(0);"), ("halted", 0, b"no index", ("f", 4, "", 4))
    yield told("x 5;", **{"m.b": "main() none();"}), ("halted", 5, b"no index", None)
    yield told("main()\n  exit(3);"), ("halted", 3, b"", None)
    it = b.Session("main() none();", libs=libs)
    yield (it.run().why, it.place().file, it.place().file_line), ("halted", "raise.b", 13)
    yield [(frame.line, frame.file, frame.file_line) for frame in it.frames()][1:], \
        [(3, "at.b", 2), (4, "at.b", 3), (1, "", 1)]
    code = "F main 0 0 0 2 5\nw 26721\nw 1025\nx raise\nv\ns 0\nk 1\nr\nF raise 1 1 0 0 5\nx exit\nv\nc 9\nk 1\nr\nE\n"
    end = b.Session(code=code).run()
    yield (end.text, end.at and end.at.name, end.at and end.at.line), (b"ah\1", "main", 7)
    end = b.Session(code=code, lines="0\n0\n0\n70\n0\n" + "0\n" * 5).run()
    yield (end.text, end.at and end.at.line, end.at and end.at.file_line), (b"ah\1", 70, 70)


def copies():
    """What is found of copies: each goes on as the run would have, and is started anew and closed on its own."""
    source = "n; main() { extrn n; auto c; while((c = getchar()) != '*e') { n++; putchar(c + 1); } exit(n); }"
    it = b.Session(source, "HA", output=1000)
    it.go_on(30)
    copy = it.copy()
    yield (copy.place(), copy.word(7)), (it.place(), it.word(7))
    it.set_word(7, 60)
    yield (copy.word(7), it.word(7)), (2, 60)
    for one in (copy, it):
        one.feed("L")
        one.close_input()
    yield (copy.go_on(), copy.output()), (b.End("halted", 3), b"IBM")
    yield (it.go_on(), it.output()), (b.End("halted", 61), b"IBM")
    again = copy.copy()
    yield (again.go_on(), again.output()), (b.End("halted", 3), b"")
    again.start("Z")
    again.close_input()
    yield (again.go_on().status, copy.go_on().status, it.go_on().status), (1, 3, 61)
    copy.close()
    yield refused(copy.copy), ValueError
    yield (again.output(), it.word(7)), (b"[", 61)
    it = b.Session("main() { auto i; while(1) i++; }")
    kept = []
    for _ in range(9):
        it.go_on(1000)
        kept.append(it.copy())
    del kept[::2]
    yield [one.place().steps for one in kept], [2000, 4000, 6000, 8000]
    yield [(one.go_on(500), one.place().steps)[1] for one in kept], [2500, 4500, 6500, 8500]
    del it
    yield [one.copy().place().steps for one in kept], [2500, 4500, 6500, 8500]


def copies_at_random():
    """What is found of copies beside runs that are made anew, to which all is done that was done to a copy."""
    source = "n; main() { extrn n; auto c; while((c = getchar()) != '*e') { n++; putchar(c + 1); } exit(n); }"
    random = Random(7)

    def does(it, name, word):
        try:
            return getattr(it, name)(*word)
        except ValueError as error:
            return str(error)

    def ends(it):
        return it.place(), it.word(7), it.go_on(), it.output()

    for _ in range(40):
        runs = [(b.Session(source), [])]
        for _ in range(60):
            it, done = random.choice(runs)
            kind = random.randrange(8)
            if kind == 0:
                runs.append((it.copy(), [*done]))
            elif kind == 1 and len(runs) > 1:
                runs.remove((it, done))
                it.close()
            elif kind == 2 and random.randrange(4) == 0:
                it.start("B")
                done[:] = [("start", ("B",), None)]
            else:
                number = random.randrange(40)
                calls = [("go_on", (number,)), ("feed", ("AB",)), ("set_word", (7, number)), ("output", ()),
                         ("place", ()), ("close_input", ())]
                name, word = random.choice(calls)
                done.append((name, word, does(it, name, word)))
        for it, done in runs:
            anew = b.Session(source)
            found = [does(anew, name, word) for name, word, _ in done]
            yield [answer for _, _, answer in done], found
            yield ends(it), ends(anew)


def loads():
    """What is found of sessions with other files, of faults when they are loaded, and of their places."""
    source, libs = "main() { printn(six(), 10); }", {"six.b": "six() {\n  return(6);\n}"}
    yield b"".join(b.Session(source, libs=libs).outputs()), b"6"
    yield error_of(b.Session, source), (b.REFUSED, b"load 3\n", b"")
    yield error_of(b.Session, source, libs={b"\xff": ""}), (b.WRONG_EDITION, b"", b"")
    yield error_of(b.Session, "main() {\nreturn(x); }"), (b.FAULT, b"un x 2\n", b"")
    yield error_of(b.Session, code="F"), (b.REFUSED, b"code 1\n", b"")
    code, lines = "F main 0 0 0 0 4\nc 7\np\nc 0\nr\nE\n", "8\n8\n9\n9\n"
    yield [place.line for place in b.Session(code=code)], [2, 3, 4, 5]
    yield [place.line for place in b.Session(code=code, lines=lines)], [8, 8, 9, 9]
    yield [place.column for place in b.Session(code=code, lines=lines)], [0, 0, 0, 0]
    columns = "8 1\n8\n9 300\n9 2\n"
    yield [(it.line, it.column) for it in b.Session(code=code, lines=columns)], [(8, 1), (8, 0), (9, 300), (9, 2)]
    yield error_of(b.Session, code=code, lines=columns.replace("300", "0"))[0], b.WRONG_EDITION
    yield {place.column for place in b.Session("main() { putchar(7); }")}, {0}
    yield b.Session(code=code, lines=lines, names="F main\n").go_on(), b.End("halted")
    status, line, _ = error_of(b.Session, code=code, lines=lines[2:])
    yield status, b.WRONG_EDITION
    wanted = b"a number from 0 to 18446744073709551615, alone or with a column of it, for place 3 of main"
    yield line, b"error: line 4 of the file of lines has to be " + wanted + b"\n"
    status, line, _ = error_of(b.Session, code=code, names="F f\n")
    yield (status, line.startswith(b"error: line 1 of the file of names has to be 'F main'")), (b.WRONG_EDITION, True)
    with b.Session("f(n) {\n  return(n);\n}\nmain() {\n  f(2);\n}") as it:
        seen = {(place.name, place.line, place.callers) for place in it}
        yield {("main", 5, 0), ("f", 2, 1)} <= seen, True
        yield (it.name_of(it.place().function), it.name_of(3)), ("main", "")
        yield refused(it.name_of, 2**32), ValueError


def symbols():
    """What is found of names, by the layout of memory."""
    it = b.Session("n 4, 5; v[3]; f(x, y) {\n  auto w 3, i;\n  top: i = x;\n  goto top;\n}\nmain() f(1, 2);")
    told = [(symbol.name, symbol.kind, symbol.address, symbol.words) for symbol in it.symbols()]
    yield told, [("n", "simple", 7, 2), ("v", "vector", 9, 5), ("f", "function", 14, 1), ("main", "function", 15, 1)]
    f = it.find("f")
    yield (f.function, f.parameters, f.frame, f.labels, f.line), (15, 2, 8, 1, 2)
    yield [it.find(name) for name in ("g", "", "1", "abcdefghi", "\0")], [None] * 5
    yield [it.symbol_at(at) and it.symbol_at(at).name for at in (0, 6, 8, 9, 13, 16)], [None, None, "n", "v", "v", None]
    words = [(word.name, word.kind, word.address, word.words) for word in it.locals(f.function)]
    wanted = [("x", "parameter", 0, 1), ("y", "parameter", 1, 1), ("w", "automatic vector", 2, 5)]
    yield words, [*wanted, ("i", "automatic", 7, 1)]
    yield [(label.name, label.line) for label in it.labels(f.function)], [("top", 3)]
    lines = [instruction.line for instruction in it.instructions(f.function)]
    yield (len(lines), lines[0], lines[-1]), (f.instructions, 2, 5)
    yield [*it.locals(3), *it.labels(f.address), *it.instructions(0)], []
    for wrong in ((it.symbol_at, -1), (it.symbol_at, 2**32), (it.locals(2**32).__next__,)):
        yield refused(*wrong), ValueError
    code = "F main 0 3 1 0 4\nt 3\nc 7\np\nc 0\nr\nE\n"
    yield [*b.Session(code=code).locals(8), *b.Session(code=code).labels(8)], []


def ignored():
    """What is found of arguments that nothing would look at, and of a second thread."""
    code = "F main 0 0 0 0 2\nc 0\nr\nE\n"
    for wrong in ({"lines": "1"}, {"names": "F main"}):
        yield kind_of(b.Session, "main() { }", **wrong), TypeError
    for wrong in ({"source": "main() { }"}, {"libs": {"a": "b"}}, {"edition": 2}):
        yield kind_of(b.Session, code=code, **wrong), TypeError
    yield kind_of(b.trace, "main() { }", start=2, last=3), ValueError
    it, seen = b.Session("main() { while(1) ; }"), []
    thread = threading.Thread(target=lambda: it.go_on(40_000_000))
    thread.start()
    while thread.is_alive():
        seen.append(kind_of(it.place))
    yield set(seen) <= {None, RuntimeError} and RuntimeError in seen, True
    yield it.place().steps, 40_000_000


def kind_of(call, *words, **how):
    """The type of what a call raises, or None."""
    try:
        call(*words, **how)
    except Exception as error:
        return type(error)
    return None


def stops():
    """What is found of breakpoints, calls, returns and watched words."""
    it = b.Session("n; f(k) {\n  extrn n;\n  if(k)\n    f(k - 1);\n  n++; }\nmain() f(3);")
    first = next(place for place in it if place.callers == 1)
    at = (first.function, first.place)
    for calls in (2, 3, 4):
        yield it.go_to([at]).why, "stopped"
        yield [frame.name for frame in it.frames()], ["f"] * calls + ["main"]
        yield [frame.line for frame in it.frames()][1:], [4] * (calls - 1) + [6]
        yield [it.word(frame.start) for frame in it.frames()[:-1]], list(range(4 - calls, 4))
    yield (it.go_to(returned=4).why, it.place().callers), ("stopped", 3)
    yield (it.go_to(words=[(7, it.word(7))]).why, it.word(7)), ("stopped", 2)
    back = it.frames()[2]
    yield (it.go_to(near=[(back.function, back.place)], callers=1).why, it.place().callers), ("stopped", 1)
    yield it.go_to([at]), b.End("halted")
    yield (it.go_to().why, it.frames()[0].name), ("halted", "main")
    it = b.Session("main() { while(1) ; }")
    yield (it.go_to(steps=3_000_001).why, it.place().steps), ("limit", 3_000_001)
    yield (it.go_to(steps=0).why, it.place().steps), ("limit", 3_000_001)
    for wrong in ({"words": [(65536, 0)]}, {"callers": -1}, {"returned": 2**64}):
        yield refused(it.go_to, **wrong), ValueError


def limits():
    """What is found of limits."""
    writes = "main() { auto n; n = 60000; while(n--) putchar('ab'); }"
    it = b.Session(writes, output=100)
    yield it.go_on().why, "has output"
    yield 100 < len(it.output()) < 65536, True
    told = []
    yield it.run(write=told.append).why, "halted"
    yield len(told) > 3, True
    yield b"".join(b.Session(writes, output=0).outputs()), b"ab" * 60000
    yield b.Session(writes, output=0).run().why, "has output"
    grows = "F main 0 0 0 0 2\nc 1\nj 0\nE\n"
    yield b.Session(code=grows, operands=1000).run(), b.End("too large", of="operands")
    yield b.Session(code=grows).run(steps=200_000), b.End("limit")
    it = b.Session("v[20000]; main() { extrn v; auto n; n = 0; while(n < 20000) v[n++] = 7; }")
    it.limit(pages=3)
    yield it.run(), b.End("too large", of="pages")
    it.limit(operands=1000)
    yield it.run(), b.End("too large", of="pages")
    it.limit(pages=None)
    yield it.run(), b.End("halted")
    for named in ({"pages": 257}, {"pages": -1}, {"operands": -1}, {"output": 2**64}):
        yield refused(it.limit, **named), ValueError
        yield refused(b.Session, writes, **named), ValueError


def lost():
    """A run whose operands grow until memory is refused, while it writes: what it wrote in its last slice is handed on
    before that is told."""
    it, parts = b.Session(code="F main 0 0 0 0 7\nx putchar\nv\nc 97\nk 1\np\nc 1\nj 0\nE\n"), []
    with little_memory():
        failure = error_of(it.run, write=lambda out: parts.append(len(out)), steps=MOST)
    yield failure, (b.NO_MEMORY, b"", b"")
    yield 0 < parts[-1] < min(parts[:-1]), True
    for call in (it.go_on, it.place):
        yield error_of(call), (b.NO_MEMORY, b"", b"")


@contextlib.contextmanager
def little_memory():
    """Leaves this process some megabytes more than it has."""
    limits = resource.getrlimit(resource.RLIMIT_AS)
    has = int(pathlib.Path("/proc/self/statm").read_text().split()[0]) * resource.getpagesize()
    resource.setrlimit(resource.RLIMIT_AS, (has + (1 << 24), limits[1]))
    try:
        yield
    finally:
        resource.setrlimit(resource.RLIMIT_AS, limits)


def refused(call, *words, **named):
    """The kind of error that a call raises."""
    try:
        call(*words, **named)
    except Exception as error:
        return type(error)
    return None


def interrupted():
    """How many seconds pass from a signal to the interrupt of a run that never ends."""
    it = b.Session("main() { while(1) ; }")
    signal.setitimer(signal.ITIMER_REAL, 0.2)
    signal.signal(signal.SIGALRM, signal.default_int_handler)
    begun = time.monotonic()
    try:
        it.run(steps=1 << 60)
    except KeyboardInterrupt:
        return time.monotonic() - begun - 0.2
    return 1


def contents(path):
    return path.read_bytes() if path.exists() else b""


class Ask(NamedTuple):
    """What a case asks for."""

    command: str
    source: pathlib.Path
    editions: List[int]
    numbers: Dict[str, int]
    libs: List[str]
    is_json: bool


def asked(path):
    """What a case asks for, or None where that is more than a call can do."""
    words = path.read_text().split("\n")
    words = words[:-1] if words[-1] == "" else words
    command, editions, numbers, libs, is_json = words[0], [1], {}, [], False
    source = path.with_suffix(".code" if command == "run" else ".b")
    if command == "run" and "--where" in words:
        command = "run_where"
        words.remove("--where")
    rest = iter(words[1:])
    for word in rest:
        if word.startswith("--edition="):
            said = word.partition("=")[2]
            editions = [1, 2] if said == "both" else [int(said)]
        elif word in ("--steps", "--from", "--last") and command != "map":
            numbers[word] = int(next(rest))
        elif word == "--with":
            libs.append(next(rest))
        elif (command, word) in (("check", "--json"), ("count", "--json")):
            is_json = True
        elif word != source.name:
            return None
    has_text = source.exists() and (command == "compile" or source.name in words)
    has_text = has_text and all((source.parent / name).is_file() for name in libs) and len({*libs}) == len(libs)
    if command not in COMMANDS or not has_text or (command == "check" and not is_json):
        return None
    return Ask(command, source, editions, numbers, libs, is_json)


def limit(ask):
    """The limit of steps: that of a case, or what the command takes where there is none."""
    of_rows = {"trace": 1000, "show": 1999 + ask.numbers.get("--from", 1)}
    default = 10**7 if "--last" in ask.numbers else of_rows.get(ask.command, MOST)
    return ask.numbers.get("--steps", default)


def answer(ask, given, edition):
    """What a call answers to a case in an edition."""
    text, call = ask.source.read_bytes(), getattr(b._library, f"b_{ask.command}")
    given = (given, len(given))
    if ask.command in ("run", "run_where"):
        return b._call(call, text, len(text), *given, limit(ask), room=ROOM, line_room=ROOM)
    if ask.command == "format":
        return b._call(call, text, len(text), edition, room=ROOM)
    source = b._source(text, {name: (ask.source.parent / name).read_bytes() for name in ask.libs})
    if ask.command in ("compile", "check", "go"):
        alone = getattr(b._library, f"b_{ask.command}")
        call = getattr(b._library, f"b_{ask.command}_with") if ask.libs else alone
        source = source if ask.libs else source[:2]
    words = {
        "go": (*given, edition, limit(ask)),
        "trace": (*given, edition, limit(ask), ask.numbers.get("--from", 1), ask.numbers.get("--last", 0)),
        "count": (*given, edition, limit(ask), int(ask.is_json)),
        "show": (*given, edition, limit(ask), ask.numbers.get("--from", 1), ask.numbers.get("--last", 0)),
    }.get(ask.command, (edition,))
    return b._call(call, *source, *words, room=ROOM, line_room=ROOM, has_line=ask.command != "check")


def cases(folder):
    """What is found and what is wanted, of each case that a call can serve."""
    for path in sorted(folder.glob("**/*.args")):
        kept = [path.with_suffix(it) for it in (".out", ".line", ".status", ".in", ".shown")]
        out, line, status, given = (contents(it) for it in kept[:4])
        ask = None if kept[4].exists() or b"...\n" in out + line else asked(path)
        # A page tells the input that is known before the run, and that of a case isn't.
        if ask and ask.command == "show" and given:
            ask = None
        for edition in ask.editions if ask else ():
            wanted = out if ask.command != "compile" or edition == 1 or len(ask.editions) == 1 else b"B 2\n" + out
            if ask.command in ("check", "count", "show"):
                wanted = wanted.replace(ask.source.name.encode(), b"-")
            found = answer(ask, given, edition)
            yield found, (int(status or 0), wanted, line), f"{path.relative_to(folder)}, edition {edition}"


tried = [(found, wanted, "a row") for found, wanted in (*rows(), *texts_and_numbers(), *with_files(), *sessions())]
tried += cases(pathlib.Path(sys.argv[1]))
wrong = [row for row in tried if row[0] != row[1]]
for found, wanted, name in wrong:
    print(f"b.py: {name}: {found}, and not {wanted}")
print(f"b.py: {len(tried)} rows and cases were tried")
raise SystemExit(1 if wrong else 0)
