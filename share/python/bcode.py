"""Builds code texts of B's machine, for a compiler of your own that is written in Python.

  >>> code = Code()
  >>> main = code.function("main")
  >>> main.call("printn", 6 * 7, 10)
  >>> main.drop()
  >>> code.text()
  b'F main 0 0 0 0 8\\nx printn\\nv\\nc 42\\nc 10\\nk 2\\np\\nc 0\\nr\\nE\\n'

`Code.line` is the line of your source to which all belongs that is added from then on, and `Code.column` its column
there, in bytes from 1 on; a new line has none until one is set. `lines()` has both, as `b trace --made` takes them, and
`names()` the names of the words of frames and of labels that were told. A number or a name that no code text may have
is a CodeError at once, and what is still open at the end is one at `text()`.
docs/CODE.md tells what each instruction does."""
import operator
import re
from typing import Any, Callable, Dict, List, NoReturn, Optional, Sequence, SupportsIndex, Tuple, TypeVar, Union

WORDS, VALUES, STRINGS, PARAMETERS, LABELS, INSTRUCTIONS = 32767, 1024, 1024, 128, 128, 4096
LIBRARY = ("char", "lchar", "getchar", "putchar", "printn", "exit")
OPERATORS = ("|", "&", "==", "!=", "<", "<=", ">", ">=", "<<", ">>", "-", "+", "%", "*", "/")
END_OF_STRING, LAST = 4, 2 ** 64 - 1
NAME = re.compile(r"[A-Za-z_][A-Za-z0-9_]{0,7}", re.ASCII)
Text = Union[bytes, bytearray, memoryview, str]
BEFORE_INC, BEFORE_DEC, AFTER_INC, AFTER_DEC = range(4)
HEAD = re.compile(r"[FVX] \S+(?: [0-9]{1,5})+", re.ASCII)
NUMBERS = {"F": 5, "V": 3, "X": 2}  # in the first line of a definition


class CodeError(Exception):
    """What no code text can have, or what is missing in one, with the line of your source where that is known."""

    line: Optional[int] = None


def number(what: str, given: SupportsIndex, least: int, most: int) -> int:
    whole = operator.index(given)
    if not least <= whole <= most:
        raise CodeError(f"{what} is {whole}, and has to be from {least} to {most}")
    return whole


def word(given: SupportsIndex) -> int:
    """A word, of a number that may be below 0."""
    return number("a constant", given, -32768, 65535) % 65536


def name_of(given: str) -> str:
    if not NAME.fullmatch(given):
        raise CodeError(f"{given!r} is no name: one has at most eight letters, digits and _, and begins with no digit")
    return given


def shown(given: object) -> str:
    """A name as a file of names has it: what is too long is cut off, and `_` stands for what is no name."""
    cut = str(given)[:8]
    return cut if NAME.fullmatch(cut) else "_"


def packed(text: bytes) -> List[int]:
    """The words of a string, with its end."""
    if END_OF_STRING in text:
        raise CodeError("a string ends before a byte 4")
    whole = [*text, END_OF_STRING]
    return [low + 256 * high for low, high in zip(whole[::2], [*whole[1::2], 0])]


class Place:
    """A place of a function to which instructions lead before it is known, or after: `Function.put` sets it."""

    at: Optional[int] = None

    def __init__(self, function: "Function") -> None:
        self.function, self.line = function, function.code.line


Target = Union[Place, SupportsIndex, None]


class Label(Place):
    """A place whose value a program can keep, and to which `goto` leads."""

    def __init__(self, function: "Function", index: int) -> None:
        super().__init__(function)
        self.index = index


class Definition:
    """What all definitions have: a name, string words, and lines with the places of the code that they belong to."""

    def __init__(self, code: "Code", name: str) -> None:
        self.code, self.name = code, name_of(name)
        self.strings: List[int] = []
        self.kept: Dict[bytes, int] = {}
        self.lines: List[str] = []
        self.names: List[str] = []
        self.label_names: List[str] = []

    def written(self) -> List[str]:
        """The lines of its code."""
        raise NotImplementedError

    def fail(self, text: str, line: Optional[int] = None) -> NoReturn:
        fault = CodeError(f"{self.name}: {text}")
        fault.line = line
        raise fault

    def string(self, text: Text) -> int:
        """The offset of a string, of bytes or of a text in UTF-8. The same string stands once."""
        given = text.encode() if isinstance(text, str) else bytes(text)
        if given not in self.kept:
            words = packed(given)
            if len(self.strings) + len(words) > STRINGS:
                self.fail(f"its strings have more than {STRINGS} words")
            self.kept[given] = len(self.strings)
            self.strings += words
        return self.kept[given]


class Data(Definition):
    """An external word, or a vector with `words` words, and the values that it has at first."""

    def __init__(self, code: "Code", name: str, words: Optional[int] = None) -> None:
        super().__init__(code, name)
        self.words = None if words is None else number(f"the size of {name}", words, 1, WORDS)
        self.values: List[str] = []

    def add(self, line: str) -> None:
        if len(self.values) == VALUES:
            self.fail(f"it has more than {VALUES} values")
        if self.words == len(self.values):
            self.fail(f"it has more values than its {self.words} words")
        self.values.append(line)
        self.lines.append(self.code.origin)

    def constant(self, given: SupportsIndex) -> None:
        self.add(f"c {word(given)}")

    def external(self, name: str) -> None:
        """The address of an external."""
        self.add(f"x {self.code.use(name)}")

    def text(self, text: Text) -> None:
        """The address of a string."""
        self.add(f"s {self.string(text)}")

    def written(self) -> List[str]:
        head = f"X {self.name}" if self.words is None else f"V {self.name} {self.words}"
        sizes = f"{len(self.values)} {len(self.strings)}"
        return [f"{head} {sizes}", *self.values, *(f"w {it}" for it in self.strings)]


class Function(Definition):
    """A function. Each method that is named as an instruction of docs/CODE.md adds it."""

    def __init__(self, code: "Code", name: str, parameters: Union[SupportsIndex, Sequence[object]]) -> None:
        super().__init__(code, name)
        count = parameters if isinstance(parameters, SupportsIndex) else len(parameters)
        self.parameters = self.frame = number(f"the parameters of {name}", count, 0, PARAMETERS)
        named = ["_"] * self.frame if isinstance(parameters, SupportsIndex) else parameters
        self.instructions: List[Tuple[Any, ...]] = []
        self.labels: List[Label] = []
        self.names = [f"F {self.name}", *(f"a {shown(it)}" for it in named)]

    @property
    def here(self) -> int:
        """The place of the next instruction."""
        return len(self.instructions)

    def words(self, count: int = 1, name: str = "_") -> int:
        """So many new words of the frame: the number of the first, which has the name."""
        first = self.frame
        self.frame = number(f"the frame of {self.name}", first + number("words", count, 0, WORDS), 0, WORDS)
        self.names += [f"a {shown(name)}", *["a _"] * count][:count]
        return first

    def vector(self, words: int, name: str = "_") -> int:
        """A new word of the frame for the address of the so many words after it: its number."""
        own = self.words(1 + number("the size of a vector", words, 1, WORDS), name)
        self.names[-words:] = ["-"] * words
        return own

    def label(self, name: str = "_") -> Label:
        if len(self.labels) == LABELS:
            self.fail(f"it has more than {LABELS} labels")
        self.labels.append(Label(self, len(self.labels)))
        self.label_names.append(f"l {shown(name)}")
        return self.labels[-1]

    def put(self, place: Place) -> None:
        """Sets a place, which is the next instruction from now on."""
        if place.function is not self:
            self.fail(f"a place of {place.function.name} is set")
        if place.at is not None:
            self.fail("a place is set twice")
        place.at = self.here

    def add(self, letter: str, *parts: object) -> None:
        if self.here == INSTRUCTIONS:
            self.fail(f"it has more than {INSTRUCTIONS} instructions")
        self.instructions.append((letter, *parts))
        self.lines.append(self.code.origin)

    def to(self, letter: str, place: "Target", *parts: object) -> Any:
        """An instruction that leads to a place, to a new one where none is given, which it answers."""
        place = Place(self) if place is None else place
        if not isinstance(place, Place):
            number(f"a place of {self.name}", place, 0, self.here)
        elif place.function is not self:
            self.fail(f"an instruction leads to a place of {place.function.name}")
        self.add(letter, *parts, place)
        return place

    def constant(self, given: SupportsIndex) -> None:
        self.add("c", word(given))

    def external(self, name: str) -> None:
        self.add("x", self.code.use(name))

    def automatic(self, index: SupportsIndex) -> None:
        if not self.frame:
            self.fail("its frame has no words")
        self.add("a", number(f"a word of the frame of {self.name}", index, 0, self.frame - 1))

    def text(self, text: Text) -> None:
        self.add("s", self.string(text))

    def label_value(self, label: Label) -> None:
        if label not in self.labels:
            self.fail("this label is none of the function")
        self.add("l", label.index)

    def load(self) -> None:
        self.add("v")

    def store(self) -> None:
        self.add("w")

    def operator(self, letter: str, sign: str) -> None:
        if sign not in OPERATORS:
            self.fail(f"{sign!r} is no operator: {' '.join(OPERATORS)}")
        self.add(letter, sign)

    def binary(self, sign: str) -> None:
        self.operator("b", sign)

    def modify(self, sign: str) -> None:
        self.operator("m", sign)

    def negate(self) -> None:
        self.add("n")

    def invert(self) -> None:
        """1 of 0, and 0 of all else."""
        self.add("h")

    def increment(self, kind: int) -> None:
        self.add("i", number("the kind of an increment", kind, 0, 3))

    def jump(self, place: "Target" = None) -> Any:
        return self.to("j", place)

    def jump_if_zero(self, place: "Target" = None) -> Any:
        return self.to("z", place)

    def jump_if_case(self, given: SupportsIndex, place: "Target" = None) -> Any:
        return self.to("e", place, word(given))

    def goto(self) -> None:
        self.add("g")

    def call_with(self, arguments: int) -> None:
        """A call of the callee that stands below so many arguments."""
        self.add("k", number("the arguments of a call", arguments, 0, 65535))

    def call(self, name: str, *constants: SupportsIndex) -> None:
        """A call of an external function with constants, or with none, whose result is left."""
        self.variable(name)
        for it in constants:
            self.constant(it)
        self.call_with(len(constants))

    def variable(self, which: Union[str, SupportsIndex]) -> None:
        """The word of an external, by its name, or of the frame, by its number."""
        if isinstance(which, str):
            self.external(which)
        else:
            self.automatic(which)
        self.load()

    def give(self) -> None:
        """Returns the topmost word."""
        self.add("r")

    def drop(self) -> None:
        self.add("p")

    def end(self) -> None:
        """Adds the return of 0 with which a function ends, unless its end is never reached."""
        parts = (it for instruction in self.instructions for it in instruction)
        places = [*self.labels, *(it for it in parts if isinstance(it, Place))]
        if self.instructions[-1:] != [("r",)] or any(it.at == self.here for it in places):
            self.constant(0)
            self.give()

    def part(self, given: object) -> str:
        if isinstance(given, Place):
            if given.at is None:
                self.fail("an instruction leads to a place that isn't set", given.line)
            return str(given.at)
        return str(given)

    def written(self) -> List[str]:
        self.end()
        for it in self.labels:
            if it.at is None:
                self.fail("a label isn't set", it.line)
        sizes = (self.parameters, self.frame, len(self.labels), len(self.strings), self.here)
        return [
            f"F {self.name} {' '.join(map(str, sizes))}", *(f"t {it.at}" for it in self.labels),
            *(f"w {it}" for it in self.strings), *(" ".join(map(self.part, it)) for it in self.instructions),
        ]


class Taken(Definition):
    """A definition of another code text, whose words have no names."""

    def __init__(self, code: "Code", name: str, text: List[str], places: int) -> None:
        super().__init__(code, name)
        self.text, self.lines = text, ["0"] * places
        kind, _, *sizes = text[0].split(" ")
        if kind == "F":
            self.names = [f"F {name}", *["a _"] * int(sizes[1]), *["l _"] * int(sizes[2])]

    def written(self) -> List[str]:
        return self.text


Defined = TypeVar("Defined", bound=Definition)


class Code:
    """A whole code text of an edition, and the place in your source to which what is added next belongs."""

    def __init__(self, edition: int = 1) -> None:
        self.edition, self.at = number("the edition", edition, 1, 2), (0, 0)
        self.definitions: Dict[str, Definition] = {}
        self.used: Dict[str, int] = {}

    @property
    def line(self) -> int:
        return self.at[0]

    @line.setter
    def line(self, given: int) -> None:
        self.at = number("a line", given, 0, LAST), 0

    @property
    def column(self) -> int:
        """0 where none is told."""
        return self.at[1]

    @column.setter
    def column(self, given: int) -> None:
        self.at = self.line, number("a column", given, 0, LAST)

    @property
    def origin(self) -> str:
        """The line of a file of lines for what is added next. Line 0 is none, and has no columns."""
        return f"{self.line} {self.column}" if self.line and self.column else str(self.line)

    def define(self, definition: Defined) -> Defined:
        if definition.name in self.definitions:
            raise CodeError(f"{definition.name} is defined twice")
        self.definitions[definition.name] = definition
        return definition

    def simple(self, name: str) -> Data:
        return self.define(Data(self, name))

    def vector(self, name: str, words: int) -> Data:
        return self.define(Data(self, name, words))

    def function(self, name: str, parameters: Union[SupportsIndex, Sequence[object]] = 0) -> Function:
        return self.define(Function(self, name, parameters))

    def use(self, name: str) -> str:
        """Notes that a name is used, which may be defined later."""
        self.used.setdefault(name_of(name), self.line)
        return name

    def take(self, text: Text) -> None:
        """Takes in the definitions of a whole code text, as `b compile` writes it of a file of B's library."""
        lines = (text if isinstance(text, str) else bytes(text).decode("ascii", "replace")).split("\n")
        if lines[-2:] != ["E", ""]:
            raise CodeError("that is no whole code text: its last line isn't E")
        lines = lines[lines[0] == "B 2":-2]
        while lines:
            head = HEAD.fullmatch(lines[0])
            kind, name, *numbers = head[0].split(" ") if head else ("", "")
            sizes = [int(it) for it in numbers]
            size = 1 + sum(sizes[2:] if kind == "F" else sizes[-2:])
            if len(sizes) != NUMBERS.get(kind) or size > len(lines):
                raise CodeError(f"that is no whole code text: no definition is at the line {lines[0]!r}")
            self.define(Taken(self, name, lines[:size], sizes[-1] if kind == "F" else sizes[-2]))
            for it in lines[1:size]:
                if it.startswith("x "):
                    self.use(it[2:])
            lines = lines[size:]

    def text(self) -> bytes:
        """The code text, of which `b run` takes the bytes."""
        for name, line in self.used.items():
            if name not in self.definitions and name not in LIBRARY:
                fault = CodeError(f"{name} is neither defined nor in the library")
                fault.line = line
                raise fault
        head = ["B 2"] if self.edition == 2 else []
        lines = [line for it in self.definitions.values() for line in it.written()]
        return "".join(f"{it}\n" for it in [*head, *lines, "E"]).encode("ascii")

    def lines(self) -> bytes:
        """The file of lines, of which the places are those of `text()`, after a call of that."""
        return "".join(f"{line}\n" for it in self.definitions.values() for line in it.lines).encode("ascii")

    def names(self) -> bytes:
        """The file of the names of the words of frames and of labels, as `b list --names` takes it."""
        lines = [line for it in self.definitions.values() for line in [*it.names, *it.label_names]]
        return "".join(f"{line}\n" for line in lines).encode("ascii")
