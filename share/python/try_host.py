"""Tries `Session.serve` and `call` of b.py, with lib/host.b: worked rows, and random programs beside a model.

  B_LIBRARY=LIBRARY PYTHONPATH=FOLDER python3 try_host.py LIB COUNT

LIB is the folder of host.b, and COUNT how many random programs are run."""
import pathlib
import random
import sys

import b

LIBS = {"host.b": (pathlib.Path(sys.argv[1]) / "host.b").read_bytes()}
NUMBERS = (0, 1, 2, 7, 255, 256, 32767, -32768, -1)


def session(source, **named):
    return b.Session(source, libs=LIBS, **named)


def raised(call, *words, **named):
    """The kind of error that a call raises."""
    try:
        call(*words, **named)
    except Exception as error:
        return type(error)
    return None


def answers():
    """What is found and what is wanted of calls of the host."""
    it, seen = session('main() exit(host("add", 2, -3) + host("five", 1, 2, 3, 4, 5) + host("none"));'), []
    functions = {"add": lambda x, y: x + y + 40, "five": lambda *words: seen.append(words), "none": lambda: None}
    yield it.serve(functions), b.End("halted", 39)
    yield seen, [(1, 2, 3, 4, 5)]
    it = session('main() { auto v 20; host("fill", v, 5); while(char(v, 0) != \'*e\') putchar(char(v++, 0)); }')
    yield it.serve({"fill": lambda at, size: it.set_words(at, [97, 98, 99, 4][-size:])}).why, "halted"
    yield it.output(), b"abc"
    for text in (b"", b"a", b"ab", b"abc", bytes(it for it in range(256) if it != 4)):
        it = session('main() { auto v 200; host("put", v); host("get", v); }')
        functions = {"put": lambda at: it.set_text(at, text), "get": lambda at: seen.append(it.text(at))}
        yield it.serve(functions).why, "halted"
        yield seen.pop(), text
    it = session("v[3]; main() { extrn v; host(\"x\", v); }")
    at = it.find("v").address + 1
    it.set_words(at, [-1, 65535, -32768, 32767])
    yield it.words(at, 4), [65535, 65535, 32768, 32767]
    it.set_text(at, "abc")
    it.set_text(at, "")
    yield (it.text(at), it.words(at, 2)), (b"", [4 + 256 * ord("b"), ord("c") + 4 * 256])
    yield it.text(at, 0), b""
    it.set_words(65535, [1, 2])
    yield (it.word(65535), it.word(0)), (1, 2)


def inputs():
    """The input of a program that calls its host between two bytes of it."""
    source = 'main() { auto c; while((c = getchar()) != \'*e\') putchar(host("next", c)); exit(getchar()); }'
    for parts in (["HAL"], ["H", "AL"], [b"H", b"A", "L"], []):
        it, given, told = session(source), [*parts, ""], []
        read = lambda: given.pop(0) if given else ""
        yield it.serve({"next": lambda c: c + 1}, read, told.append), b.End("halted", 4)
        yield b"".join(told), b"IBM" if parts else b""
    it = session(source)
    yield it.serve({"next": lambda c: c + 1}), b.End("halted", 4)


def calls():
    """Calls of the program by its host, from `serve` and from a function of the host."""
    source = """
    down(n) return(n < 1 ? 0 : host("up", n - 1) + n);
    stop(n) exit(n);
    trap(n) return(1 / n);
    main() { serve(); putchar('.'); }
    """
    it = session(source)
    functions = {"up": lambda n: 2 * it.call("down", n)}
    yield raised(it.call, "down", 1), ValueError
    yield it.serve(functions).why, "serves"
    for n in range(9):
        yield it.call("down", n), model_down(n)
    yield it.call("down", -1), 0
    yield it.call("trap", 1), 1
    for wrong in (("up",), ("hostq",), ("down", 1, 2, 3, 4, 5, 6), ("down", 70000), ("down", -40000)):
        yield raised(it.call, *wrong) in (LookupError, TypeError, ValueError), True
    yield it.call("down", 3), model_down(3)
    yield raised(it.call, "trap", 0), b.Ended
    it = session(source)
    it.serve(functions)
    try:
        it.call("stop", 7)
    except b.Ended as over:
        yield over.end, b.End("halted", 7)
    yield raised(session("main() { }").serve), None
    yield raised(b.Session("main() { }").serve), ValueError
    it = session(source)
    it.serve()
    yield raised(it.call, "down", 2), LookupError
    it = session(source)
    it.serve()
    it.close_input()
    yield (it.go_on(), it.output()), (b.End("halted"), b".")


def model_down(n):
    return 0 if n < 1 else 2 * model_down(n - 1) + n


def failures():
    """What a function of the host raises, and the same call again."""
    it, asked = session('n; twice(x) { extrn n; n++; return(2 * x); } main() exit(host("may", 3));'), []

    def may(x):
        asked.append(it.call("twice", x))
        if len(asked) < 3:
            raise KeyError("not yet")
        return asked[-1]

    for _ in range(2):
        yield raised(it.serve, {"may": may}), KeyError
    yield raised(it.serve, {}), LookupError
    for wrong in (70000, -32769, "1", 1.5):
        yield raised(it.serve, {"may": lambda x: wrong}) in (ValueError, TypeError), True
    yield it.serve({"may": may}), b.End("halted", 6)
    yield it.word(it.find("n").address), 3
    it = session('main() while(1) host("x");')
    yield it.serve({"x": lambda: None}, steps=10_000).why, "limit"
    it.close()
    it = session('some(n) { while(n--) ; return(7); } main() { host("x"); host("x"); while(1) ; }')
    yield it.serve({"x": lambda: it.call("some", 1000)}, steps=2000).why, "limit"
    yield it.serve({"x": lambda: it.call("some", 1000)}, steps=2000).why, "limit"
    yield from resumed()
    it = b.Session("hostq[1]; main() { extrn hostq; hostq[0] = 2; getchar(); }")
    yield raised(it.serve), ValueError


def resumed():
    """A run that goes on after a call that hasn't ended, or after another one."""
    source = """
    one(x) return(x + 1);
    ask(x) return(host("may", x) + 100);
    slow(x) { auto i; i = 0; while(i < x) i++; putchar(getchar()); return(i); }
    sub(x) { serve(); return(x); }
    main() { printn(host("first", 5), 10); serve(); }
    """
    it, asked = session(source), []

    def may(x):
        asked.append(x)
        if len(asked) == 1:
            raise KeyError("not yet")
        return x + 1

    functions = {"may": may, "first": lambda x: 2 * it.call("ask", x)}
    yield raised(it.serve, functions), KeyError
    yield it.call("one", 7), 8
    other = it.copy()
    yield it.serve(functions).why, "serves"
    yield (asked, it.output()), ([5, 5, 5], b"212")
    yield other.call("one", 8), 9
    yield other.serve({"may": lambda x: x, "first": lambda x: other.call("ask", 1)}).why, "serves"
    yield other.output(), b"101"
    yield raised(it.call, "sub", 50), b.Ended
    yield it.call("one", 1), 2
    it = session(source)
    yield raised(it.serve, {"first": lambda x: it.call("slow", 1000, steps=100)}, lambda: "Q"), b.Ended
    yield raised(it.call, "one", 1), ValueError
    yield it.serve({"first": lambda x: it.call("one", x)}, lambda: "Q").why, "serves"
    yield it.output(), b"Q6"
    it, given = session('main() { auto c; while((c = getchar()) != 4) { putchar(c); host("x"); } }'), ["abc", "de", ""]
    read = lambda: given.pop(0)
    yield raised(it.serve, {}, read), LookupError
    while it.serve({"x": lambda: None}, read, steps=100).why == "limit":
        pass
    yield it.output(), b"abcde"
    it.start()
    yield (it.serve({"x": lambda: None}), it.output()), (b.End("halted"), b"")


class Program:
    """A random program, in B and as a model: functions that call those of the host and functions below them."""

    def __init__(self, chance):
        self.bodies = {}
        for number in range(4):
            for kind in "fh":
                below = [f"{it}{at}" for at in range(number) for it in "fh"]
                self.bodies[f"{kind}{number}"] = [self.statement(chance, below) for _ in range(chance.randint(1, 4))]

    def statement(self, chance, below):
        """`t` becomes a call, a byte of the input, or what an operator gives of it and a number."""
        kind = chance.choice("crrss") if below else chance.choice("rss")
        if kind == "c":
            return kind, chance.choice(below), chance.choice("atb"), chance.choice(NUMBERS)
        return (kind,) if kind == "r" else (kind, chance.choice("+-*"), chance.choice("ab"), chance.choice(NUMBERS))

    def source(self):
        """The functions of the program; those of the host are in Python."""
        lines = []
        for name, body in self.bodies.items():
            if name[0] == "f":
                lines += [f"{name}(a, b) {{", "    auto t;", "    t = 0;", *map(self.in_b, body), "    return(t);", "}"]
        main = 'main() { printn(f3(1, 2), 10); printn(host("h3", 3, 4), 10); }'
        return "\n".join(["read() return(getchar());", *lines, main])

    def in_b(self, statement):
        kind, *rest = statement
        if kind == "r":
            return "    t = t + getchar();"
        if kind == "s":
            operator, name, number = rest
            return f"    t = t {operator} {name} + {number if number >= 0 else f'({number})'};"
        callee, name, number = rest
        given = f"{name}, {number}"
        return f"    t = {callee}({given});" if callee[0] == "f" else f'    t = host("{callee}", {given});'

    def value(self, name, a, b, call, read):
        """What a function gives, by what calls others and what reads."""
        t = 0
        for kind, *rest in self.bodies[name]:
            if kind == "r":
                t += read()
            elif kind == "s":
                operator, other, number = rest
                with_it = {"a": a, "b": b}[other]
                t = {"+": t + with_it, "-": t - with_it, "*": t * with_it}[operator] + number
            else:
                callee, other, number = rest
                t = call(callee, {"a": a, "b": b, "t": t}[other], number)
            t = (t + 32768) % 65536 - 32768
        return t


def programs(count):
    """What random programs write, and what their models do."""
    for seed in range(count):
        chance = random.Random(seed)
        program, given = Program(chance), bytes(chance.choices([97, 48, 255, 10], k=chance.randint(0, 12)))
        it, order = session(program.source()), []
        unread, parts = bytearray(given), [given[at : at + 5] for at in range(0, len(given), 5)]
        hosted = {}

        def read():
            return unread.pop(0) if unread else 4

        def modelled(name, a, b):
            if name[0] == "h":
                order.append((name, a, b))
            return program.value(name, a, b, modelled, read)

        def called(name, a, b):
            return hosted[name](a, b) if name[0] == "h" else it.call(name, a, b)

        def host_function(name):
            def function(a, b):
                seen.append((name, a, b))
                return program.value(name, a, b, called, lambda: it.call("read"))
            return function

        wanted = b"%d%d" % (modelled("f3", 1, 2), modelled("h3", 3, 4))
        seen = []
        hosted.update({name: host_function(name) for name in program.bodies if name[0] == "h"})
        end = it.serve(hosted, lambda: parts.pop(0) if parts else b"")
        yield (seed, end.why, it.output(), seen), (seed, "halted", wanted, order)


tried = [*answers(), *inputs(), *calls(), *failures(), *programs(int(sys.argv[2]))]
wrong = [row for row in tried if row[0] != row[1]]
for found, wanted in wrong[:20]:
    print(f"b.py: with host.b: {found}, and not {wanted}")
print(f"b.py: {len(tried)} rows with host.b were tried")
raise SystemExit(1 if wrong else 0)
