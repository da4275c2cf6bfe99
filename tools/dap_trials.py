"""What tools/try-dap tries the debugger with: a talk with the server, programs at random, and what their steps do, as
the rows of `trace` tell it."""
import io
import json
import pathlib
import random
import re
import sys
import threading
from typing import Dict, List, NamedTuple, Tuple

TOP = pathlib.Path(__file__).resolve().parent.parent
sys.path.insert(0, str(TOP / "share/dap"))
from bdebug.protocol import Inbox, Outbox, messages  # noqa: E402  of the debugger
from bdebug.server import Server  # noqa: E402

ROW = re.compile(r" *(\d+)  (\w+) +(\d+) +(\d+)  ([a-z](?: \S+)?)(?: |$)")
STORED = re.compile(r" +@(\d+) = (-?\d+)$")
WROTE = re.compile(r" +writes '(.*)'$")
MOST_SLICES = 20  # of a run that doesn't end
ESCAPES = {"*n": "\n", "*t": "\t", "**": "*", "*'": "'"}


# A talk with the server.


def framed(message) -> bytes:
    text = json.dumps(message).encode()
    return b"Content-Length: %d\r\n\r\n%s" % (len(text), text)


def read_frames(data: bytes) -> List[dict]:
    """The messages that a server has written."""
    found, at = [], 0
    while at < len(data):
        head = data.index(b"\r\n\r\n", at)
        size = int(data[at:head].partition(b":")[2])
        found.append(json.loads(data[head + 4:head + 4 + size]))
        at = head + 4 + size
    return found


class Slow:
    """The messages of some bytes, between which a run has time for some slices."""

    def __init__(self, data):
        self.messages, self.idle = list(messages(io.BytesIO(data))), 0

    def take(self, waits):
        self.idle += 1
        if not waits and self.idle < 4:
            return None
        self.idle = 0
        return self.messages.pop(0) if self.messages else None

    def has_urgent(self):
        return not self.messages

    @property
    def is_over(self):
        return not self.messages


def served(data: bytes, by_steps, is_slow) -> List[dict]:
    """What a server answers to these bytes, in this process."""
    out = io.BytesIO()
    Server(Slow(data) if is_slow else Inbox(io.BytesIO(data)), Outbox(out), by_steps).serve()
    return read_frames(out.getvalue())


class Read(io.BytesIO):
    """Bytes that tell when all of them were read."""

    def __init__(self, data):
        super().__init__(data)
        self.are_read = threading.Event()

    def readline(self, size=-1):
        line = super().readline(size)
        if not line:
            self.are_read.set()
        return line


def served_at_once(data: bytes) -> List[dict]:
    """The same where all of the bytes have come before the first message is answered."""
    out, stream = io.BytesIO(), Read(data)
    inbox = Inbox(stream)
    stream.are_read.wait(60)
    Server(inbox, Outbox(out)).serve()
    return read_frames(out.getvalue())


def is_like(wanted, seen) -> bool:
    """Whether all that is wanted is seen: of an object its members, of a list each item."""
    if isinstance(wanted, dict):
        return isinstance(seen, dict) and all(it in seen and is_like(wanted[it], seen[it]) for it in wanted)
    if isinstance(wanted, list):
        return isinstance(seen, list) and len(wanted) == len(seen) and all(map(is_like, wanted, seen))
    return wanted == seen and isinstance(wanted, bool) == isinstance(seen, bool)


class Talk:
    """A talk with a server that runs here, one request after another."""

    class Waiting:
        """A stream of bytes that are put into it as the server asks."""

        def __init__(self):
            self.messages = []
            self.is_over = False

        def take(self, waits):
            return self.messages.pop(0) if self.messages else None

        def has_urgent(self):
            return False

    def __init__(self, by_steps=False):
        self.out, self.inbox, self.number = io.BytesIO(), Talk.Waiting(), 0
        self.server = Server(self.inbox, Outbox(self.out), by_steps)
        self.events: List[dict] = []
        self.told: List[dict] = []

    def ask(self, command, arguments):
        """The response to a request, once the run stands or has gone on for a while; the events go to `events`."""
        self.number += 1
        message = {"seq": self.number, "type": "request", "command": command, "arguments": arguments}
        self.server.answer(json.loads(json.dumps(message)))
        for _ in range(MOST_SLICES):
            if self.server.motion is not None:
                self.server.advance()
        told = read_frames(self.out.getvalue())
        self.out.seek(0)
        self.out.truncate()
        self.told += told
        self.events = [it for it in told if it["type"] == "event"]
        return next(it for it in told if it["type"] == "response")


# Programs at random.


class Maker:
    """Makes programs that end after some hundred steps, most of them without a trap."""

    def __init__(self, seed):
        self.random, self.functions, self.loops = random.Random(seed), [], 0

    def number(self):
        return str(self.random.choice([0, 1, 2, 3, 5, 7, 100, 32767, "'a'", "'*n'"]))

    def operand(self):
        one = self.random.choice
        return one([self.number(), one(["a", "b"]), "g", "v[%d]" % one([0, 1, 2]), "w[%d]" % one([0, 1]), "*p", "x++",
                    "getchar()"])

    def value(self, deep=2):
        kind = self.random.randrange(6)
        if deep == 0 or kind < 2:
            return self.operand()
        if kind == 2 and self.functions:
            name, count = self.random.choice(self.functions)
            return f"{name}({', '.join(self.operand() for _ in range(count))})"
        if kind == 3:
            return f"({self.value(deep - 1)} ? {self.operand()} : {self.operand()})"
        operator = self.random.choice(["+", "-", "*", "<", ">", "==", "&", "|", "%", "<<"])
        return f"({self.value(deep - 1)} {operator} {self.operand() if operator != '%' else '7'})"

    def statement(self, deep, indent):
        kind, room = self.random.randrange(9), "    " * indent
        if deep and kind == 0:
            other = f" else {{\n{self.statement(0, indent + 1)} }}" if self.random.random() < .5 else ""
            return f"{room}if({self.value(1)}) {{\n{self.statement(deep - 1, indent + 1)} }}{other}"
        if deep and kind == 1:
            loop = f"l{self.loops}"
            self.loops += 1
            begin = f"{room}{loop} = 0;\n{room}while({loop}++ < {self.random.randrange(1, 4)})"
            if self.random.random() < .3:
                return f"{begin} {self.random.choice(['b++;', 'a =+ deep(1);', '{ a++; b--; }'])}"
            return f"{begin} {{\n{self.statement(deep - 1, indent + 1)} }}"
        if kind == 2:
            return f"{room}putchar('{self.random.choice('abcxyz')}'); {self.random.choice(['', 'printn(a, 10);'])}"
        if kind == 3:
            return f"{room}switch {self.operand()} {{ case 1: a = 2;\n{room}case 0: b++; }}"
        if kind == 4:
            return f"{room}a =+ {self.value()}; b = {self.value()};"
        target = self.random.choice(["a", "b", "g", "v[1]", "w[0]", "*p", "v[a & 1]"])
        return f"{room}{target} = {self.value()};"

    def function(self, name, parameters):
        self.loops = 0
        body = "\n".join(self.statement(2, 1) for _ in range(self.random.randrange(2, 6)))
        loops = "".join(f", l{it}" for it in range(self.loops))
        own = "".join(f", {it}" for it in ("a", "b") if it not in parameters)
        last = self.random.choice(["", "    return(a);\n", "    return(b + g);\n"])
        return f"{name}({', '.join(parameters)}) {{\n    extrn g, v; auto x, p, w 2{loops}{own};\n" \
               f"    p = &w[1]; x = 0;\n{body}\n{last}}}\n"

    def program(self):
        parts = ["g 3;\nv[3] 1, 'b';\n"]
        for at in range(self.random.randrange(1, 4)):
            parameters = ["a", "b"][:self.random.randrange(3)]
            parts.append(self.function(f"f{at}", parameters))
            self.functions.append((f"f{at}", len(parameters)))
        parts.append("deep(a) { if(a > 0)\n    return(deep(a - 1) + 1);\n    return(0); }\n")
        self.functions.append(("deep", 1))
        return "".join(parts) + self.function("main", [])


class Expressions:
    """Makes expressions over v, a vector, and a and b."""

    SIGNS = ("+", "-", "*", "/", "%", "<", "<=", ">", ">=", "==", "!=", "&", "|", "<<", ">>")
    OPERANDS = ("3", "017", "'a'", "'ab'", "a", "b", "v[1]", "65535", "0", "1", "32767", "*v", "(a)")

    def __init__(self, seed):
        self.random = random.Random(seed)

    def make(self, deep=4):
        kind = self.random.randrange(8)
        if deep == 0 or kind < 2:
            return self.random.choice(self.OPERANDS)
        first, second, third = (self.make(deep - 1) for _ in range(3))
        if kind == 2:
            return f"{self.random.choice('-!')} {first}"
        if kind == 3:
            return f"{first} ? {second} : {third}"
        return f"v[{first} & 3]" if kind == 4 else f"{first} {self.random.choice(self.SIGNS)} {second}"


# What their steps do, as `trace` tells it.


class Moment(NamedTuple):
    """Where a run stands before a step: its calls, the outermost first, each with its function and next place; and the
    line of the step."""

    calls: Tuple
    line: int

    @property
    def depth(self):
        return len(self.calls) - 1


class Traced:
    """A run by the rows of its trace: the moment before each step, and what was stored and written before it."""

    def __init__(self, text: str):
        self.moments: List[Moment] = []
        self.stored: List[List[Tuple[int, int]]] = []
        self.written: List[int] = [0]
        self.output, calls, before = "", [], ""
        for row in text.splitlines():
            if found := ROW.match(row):
                calls = self.after(calls, before, found)
                before = found[5]
                self.moments.append(Moment(tuple(calls), int(found[4])))
                self.stored.append([])
                self.written.append(len(self.output))
            elif found := STORED.match(row):
                self.stored[-1].append((int(found[1]), int(found[2]) & 0xFFFF))
            elif found := WROTE.match(row):
                self.output += re.sub(r"\*.", lambda it: ESCAPES.get(it[0], it[0]), found[1])
                self.written[-1] = len(self.output)

    @staticmethod
    def after(calls, before, row):
        """The calls at a row, after the instruction before it."""
        here = (row[2], int(row[3]))
        if not calls:
            return [here]
        if before.startswith("k") and here[1] == 0:
            function, place = calls[-1]
            return [*calls[:-1], (function, place + 1), here]
        return [*calls[:-2], here] if before == "r" else [*calls[:-1], here]

    def words(self, steps) -> Dict[int, int]:
        """The words that were stored in so many steps."""
        return {address: word for rows in self.stored[:steps] for address, word in rows}

    def first(self, steps, wanted):
        """The first moment after one for which something holds; the last one of all where there is none."""
        found = (it for it in range(steps + 1, len(self.moments)) if wanted(self.moments[it]))
        return next(found, None)

    def last(self, steps, wanted):
        """The last one before it, or 0."""
        return next((it for it in range(steps - 1, -1, -1) if wanted(self.moments[it])), 0)
