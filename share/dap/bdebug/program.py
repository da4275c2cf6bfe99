"""A program as a debugger sees it: its files, and the lines, places and names of its code.

Names come from the calls of the library for symbols, and the code from its call `list`, whose text docs/COMMANDS.md
tells."""
import bisect
import os
import pathlib
import re
import stat
from typing import Callable, Dict, FrozenSet, List, NamedTuple, Optional, Set, Tuple

from .words import library

MOST_OF_A_FILE = 8 << 20  # bytes
OPTIONS = re.compile(rb"/\* b:((?: --(?:edition [12]|with [\w./-]+))+) \*/", re.A)
NO_MAIN = "error: there is no function main\n  fix: write a function main, with which a run begins\n"
_HEAD = re.compile(r" *@(\d+) +(?:\d+ +)?([XVF]) (\w+)((?: \d+)*)")
_ROW = re.compile(r" *(\d+) +(\d+)  ([a-z](?: \S+)?)(?= |$)")
_LIBRARY = ("char", "lchar", "getchar", "putchar", "printn", "exit")  # at the addresses from 1 on
_JUMP = re.compile(r"(?:[jz]|e \d+) (\d+)$")


class Refused(Exception):
    """What can't be done, in words for the user."""


class Instruction(NamedTuple):
    """One instruction: its place in its function, its line in all files together, and its text, as `b 4` for a place
    that takes two operands."""

    place: int
    line: int
    text: str


class Local(NamedTuple):
    """A word of a frame: its name, its place in the frame, and the words of its vector, or 0."""

    name: str
    offset: int
    vector: int


class External(NamedTuple):
    """A definition in memory: its address, its kind, and how many words it takes."""

    name: str
    address: int
    kind: str
    words: int


class File(NamedTuple):
    """A file of the program: its path, and the number of its first line in all files together."""

    path: str
    first: int
    lines: List[str]


class Function:
    """A function: `address` is that of its first string word, by which the machine knows it."""

    def __init__(self, name, address, parameters, frame):
        self.name, self.address, self.parameters, self.frame = name, address, parameters, frame
        self.code: List[Instruction] = []
        self.locals: List[Local] = []
        self.begins: List[int] = []
        self.loops: Set[int] = set()

    def line_of(self, place: int) -> int:
        return self.code[place].line if 0 <= place < len(self.code) else 0

    def line_of_caller(self, place: int) -> int:
        """The line of a call that goes on at this place: that of the instruction that calls."""
        is_after = 0 < place <= len(self.code) and self.code[place - 1].text.startswith("k")
        return self.line_of(place - 1 if is_after else place)

    def find_begins(self) -> None:
        """Finds the places where a line is come to, which are where its code begins and where a jump leads, and the
        lines that jump back into themselves."""
        jumps = [(it, int(found[1])) for it in self.code if (found := _JUMP.match(it.text))]
        targets = {to for _, to in jumps}
        self.begins = [it.place for it in self.code
                       if it.text[0] != "j" and (it.place in targets or it.line != self.line_of(it.place - 1))]
        self.loops = {it.line for it, to in jumps if to <= it.place and it.line == self.line_of(to)}

    def begins_at(self, is_wanted: Callable[[int], bool]) -> FrozenSet[Tuple[int, int]]:
        """These places, as a run has them, on each line that is wanted."""
        return frozenset((self.address, it) for it in self.begins if is_wanted(self.line_of(it)))


def read_file(path) -> bytes:
    """The bytes of a plain file of at most 8 MB; no pipe and no device is opened."""
    try:
        told = os.stat(path)
        if not stat.S_ISREG(told.st_mode):
            raise Refused(f"{path} is no plain file")
        if told.st_size > MOST_OF_A_FILE:
            raise Refused(f"{path} is larger than 8 MB")
        return pathlib.Path(path).read_bytes()
    except (OSError, ValueError) as error:
        raise Refused(f"{path} can't be read: {getattr(error, 'strerror', None) or error}") from None


def _lib_path(name: str, source: pathlib.Path) -> pathlib.Path:
    """A file that follows: a name of the library, or a path from the folder of the source."""
    if "/" in name or "." in name:
        return source.parent / name
    here = pathlib.Path(__file__).resolve().parents[2]
    folders = [here / "lib", here.parent / "lib"]
    found = next((it / f"{name}.b" for it in folders if (it / f"{name}.b").is_file()), None)
    if found is None:
        raise Refused(f"the library has no {name}")
    return found


def _options(text: bytes) -> Tuple[Optional[int], List[str]]:
    """The edition and the files that the comment in the first line of a source names."""
    given = OPTIONS.search(text.split(b"\n", 1)[0])
    words = given[1].decode().split() if given else []
    pairs = list(zip(words[::2], words[1::2]))
    edition = next((int(value) for word, value in pairs if word == "--edition"), None)
    return edition, [value for word, value in pairs if word == "--with"]


class Program:
    """A source with the files that follow it, compiled."""

    def __init__(self, path, libs: Optional[List[str]] = None, edition: Optional[int] = None):
        self.path = pathlib.Path(os.path.abspath(path))
        self.source = read_file(self.path)
        told, named = _options(self.source)
        self.edition = edition or told or 1
        paths = [_lib_path(it, self.path) for it in (named if libs is None else libs)]
        self.libs = {str(it): read_file(it) for it in paths}
        self._read_files()
        self.functions: Dict[int, Function] = {}
        self.externals: Dict[str, External] = {}
        self.data_end = 0

    def compile(self) -> None:
        """Reads the code. A library.Error has the line of a fault."""
        b, how = library(), {"edition": self.edition, "libs": self.libs}
        self._read_list(b.list(self.source, **how).decode("latin-1"))
        with self.session() as session:
            self._read_symbols(session)
        self.by_name = {it.name: it for it in self.functions.values()}
        for function in self.functions.values():
            function.find_begins()
        self._index_lines()

    def session(self):
        """The machine with this program, at its first step."""
        return library().Session(self.source, edition=self.edition, libs=self.libs)

    def findings(self) -> List[dict]:
        """What `check` tells of the program."""
        return library().check(self.source, edition=self.edition, libs=self.libs)

    def told_faults(self, error) -> str:
        """What `check` says of a program that can't be run, with each fix."""
        errors = [it for it in self.findings() if it["severity"] == "error"]
        files = [self.path.name if it["file"] == "-" else it["file"] for it in errors]
        told = [f"{file}:{it['line']}:{it['column']}: error: {it['message']}\n  fix: {it['fix']}\n"
                for file, it in zip(files, errors)]
        return "".join(told) or (f"{self.path.name}: {NO_MAIN}" if str(error) == "load 4" else f"{error}\n")

    # Reading.

    def _read_files(self):
        self.files, first = [], 1
        for path, text in [(str(self.path), self.source), *self.libs.items()]:
            lines = text.decode(errors="replace").split("\n")
            self.files.append(File(path, first, lines))
            first += len(lines)

    def _read_list(self, text):
        function = None
        for row in text.splitlines():
            if head := _HEAD.match(row):
                numbers = [int(it) for it in head[4].split()]
                function = None
                if head[2] == "F":
                    function = Function(head[3], int(head[1]) + 1, *numbers[:2])
                    self.functions[function.address] = function
            elif (found := _ROW.match(row)) and function is not None:
                function.code.append(Instruction(int(found[1]), int(found[2]), found[3]))

    def _read_symbols(self, session):
        self.externals = {it: External(it, at, "library", 1) for at, it in enumerate(_LIBRARY, 1)}
        for it in session.symbols():
            self.externals[it.name] = External(it.name, it.address, it.kind, it.words)
            self.data_end = it.address + it.words
            if it.kind == "function":
                words = session.locals(it.function)
                self.functions[it.function].locals = [Local(word.name, word.address, word.words - 1) for word in words]

    def _index_lines(self):
        self._at_line: Dict[int, List[Tuple[int, int]]] = {}
        for function in self.functions.values():
            first: Dict[int, int] = {}
            for it in function.code:
                first.setdefault(it.line, it.place)
            for line, place in first.items():
                self._at_line.setdefault(line, []).append((function.address, place))
        self._lines = sorted(self._at_line)

    # Lines and files.

    def file_of(self, line: int) -> Tuple[Optional[File], int]:
        """The file of a line of all files together, and its number there."""
        at = bisect.bisect_right([it.first for it in self.files], line) - 1
        return (self.files[at], line - self.files[at].first + 1) if line > 0 else (None, 0)

    def file_named(self, path: str) -> Optional[File]:
        """The file of a path; its name alone is enough where only one file has it."""
        whole = os.path.realpath(path)
        same = [it for it in self.files if os.path.realpath(it.path) == whole]
        same = same or [it for it in self.files if os.path.basename(it.path) == path]
        return same[0] if same else None

    def places_at(self, file: File, line: int) -> Tuple[int, List[Tuple[int, int]]]:
        """The line with code at or after one of a file, and its places; 0 and none past the last one."""
        if line < 1 or line > len(file.lines):
            return 0, []
        at = bisect.bisect_left(self._lines, file.first + line - 1)
        if at == len(self._lines) or self._lines[at] >= file.first + len(file.lines):
            return 0, []
        return self._lines[at] - file.first + 1, self._at_line[self._lines[at]]

    def lines_with_code(self, file: File) -> List[int]:
        last = file.first + len(file.lines)
        return [it - file.first + 1 for it in self._lines if file.first <= it < last]
