"""The compiler of B and the machine that runs its code, by the library libb.so.

  >>> import b
  >>> b.go(b"main() { printn(6*7, 10); }").output
  b'42'

A text is bytes, whatever else has a buffer, or a str, which is taken as UTF-8. A source with a fault, a trap and
whatever else has a line is an Error, with its status, its line and what was written before it. A number that isn't in
its range is a ValueError. The library is looked for at the path in B_LIBRARY, beside this file, where an install puts
it, and where the system has its libraries."""
import ctypes
import inspect
import json
import operator
import os
import threading
from typing import (
    Any, Callable, Dict, Generator, Iterable, Iterator, List, Mapping, NamedTuple, Optional, SupportsIndex, Tuple,
    Union,
)

Text = Union[bytes, bytearray, memoryview, str]
Libs = Mapping[Text, Text]
Serving = Tuple[
    Mapping[str, Callable[..., Optional[int]]], Optional[Callable[[], Text]], Optional[Callable[[bytes], Any]]
]
Function = Any  # a call of the library, of which ctypes knows the arguments
STEPS = 100_000_000
FAULT, TRAP, LIMIT, REFUSED, FAILED, NO_MEMORY, WRONG_EDITION = 1, 130, 131, 132, 133, 134, 135
HAS_OUTPUT, TOO_LARGE, STOPPED = 136, 137, 138
WRONG_FILE = WRONG_EDITION  # of a session: a file of its author isn't one of the code text
__all__ = (
    *("compile", "migrate", "check", "format", "list", "map", "version", "run", "go", "trace", "count", "show"),
    *("Ran", "Error", "Ended", "Session", "Place", "Frame", "Symbol", "End"),
    *("STEPS", "FAULT", "TRAP", "LIMIT", "REFUSED", "FAILED", "NO_MEMORY", "WRONG_EDITION"),
    *("HAS_OUTPUT", "TOO_LARGE", "STOPPED", "WRONG_FILE"),
)
_LINE = 1024
_ROOM = 1 << 16
_SHOWN = 2000
_MOST = 2**64 - 1
_NAMES = (
    *("compile", "run", "run_where", "go", "migrate", "check", "format", "version"),
    *("compile_with", "go_with", "check_with", "list", "map", "trace", "count", "show"),
)


class Ran(NamedTuple):
    """What a program wrote, and its status, which is below 128."""

    output: bytes
    status: int


class Error(Exception):
    """What the library answers with a line, or with a status of its own: `status`, `line`, and `output` so far."""

    def __init__(self, status: int, output: bytes, line: bytes) -> None:
        super().__init__(line.decode("ascii", "replace").strip() or f"status {status}")
        self.status, self.output, self.line = status, output, line


class Ended(Exception):
    """The run has ended in a `call`, as `end` tells."""

    def __init__(self, end: "End") -> None:
        super().__init__(end.why)
        self.end = end


class _Serves(Exception):
    """The program waits for a call of the host."""


class _Written(ctypes.Structure):
    _fields_ = [("out", ctypes.c_size_t), ("line", ctypes.c_size_t)]


class _File(ctypes.Structure):
    _fields_ = [
        ("name", ctypes.c_char_p),
        ("name_size", ctypes.c_size_t),
        ("text", ctypes.c_char_p),
        ("text_size", ctypes.c_size_t),
    ]


def _load() -> ctypes.CDLL:
    here = os.path.dirname(os.path.abspath(__file__))
    beside = (os.path.join(here, *parts, "libb.so.1") for parts in ((), ("..", "c", "lib")))
    found = next((path for path in beside if os.path.exists(path)), "libb.so.1")
    library = ctypes.CDLL(os.environ.get("B_LIBRARY") or found)
    text, room = [ctypes.c_char_p, ctypes.c_size_t], [ctypes.c_void_p, ctypes.c_size_t]
    ends = room + room + [ctypes.POINTER(_Written)]
    library.b_compile.argtypes = text + [ctypes.c_uint8] + ends
    library.b_run.argtypes = text + text + [ctypes.c_uint64] + ends
    library.b_go.argtypes = text + text + [ctypes.c_uint8, ctypes.c_uint64] + ends
    library.b_run_where.argtypes = library.b_run.argtypes
    library.b_migrate.argtypes = text + ends
    library.b_check.argtypes = text + [ctypes.c_uint8] + room + [ctypes.POINTER(_Written)]
    library.b_format.argtypes = text + [ctypes.c_uint8] + ends
    library.b_version.argtypes = room + [ctypes.POINTER(_Written)]
    source, given, number = text + [ctypes.c_void_p, ctypes.c_size_t], text + [ctypes.c_uint8], ctypes.c_uint64
    library.b_compile_with.argtypes = source + [ctypes.c_uint8] + ends
    library.b_go_with.argtypes = source + given + [number] + ends
    library.b_check_with.argtypes = source + [ctypes.c_uint8] + room + [ctypes.POINTER(_Written)]
    library.b_list.argtypes = library.b_map.argtypes = library.b_compile_with.argtypes
    library.b_trace.argtypes = library.b_show.argtypes = source + given + [number, number, number] + ends
    library.b_count.argtypes = source + given + [number, ctypes.c_uint8] + ends
    for name in _NAMES:
        getattr(library, f"b_{name}").restype = ctypes.c_uint8
    return library


_library = _load()


def _bytes(text: Text) -> Tuple[bytes, int]:
    """A text and its length, as a call takes them."""
    given = text.encode() if isinstance(text, str) else bytes(memoryview(text))
    return given, len(given)


def _source(source: Text, libs: Optional[Libs]) -> Tuple[Any, ...]:
    """A source and the files that follow it, as a call takes them."""
    files = [_File(*_bytes(name), *_bytes(text)) for name, text in (libs or {}).items()]
    return (*_bytes(source), (_File * len(files))(*files), len(files))


def _number(name: str, number: SupportsIndex, least: int, most: int) -> int:
    """A number that is in its range, since a call takes any other by its lowest bits."""
    whole = operator.index(number)
    if not least <= whole <= most:
        raise ValueError(f"{name} is {whole}, and has to be from {least} to {most}")
    return whole


def _edition(edition: int) -> int:
    return _number("edition", edition, 1, 2)


def _call(
    function: Function, *words: Any, room: int, line_room: int = _LINE, has_line: bool = True
) -> Tuple[int, bytes, bytes]:
    """The status, the output and the line of a call."""
    out, line, written = ctypes.create_string_buffer(max(room, 1)), ctypes.create_string_buffer(line_room), _Written()
    rooms: Tuple[Any, ...] = (out, room, line, line_room) if has_line else (out, room)
    status = function(*words, *rooms, ctypes.byref(written))
    return status, ctypes.string_at(out, written.out), line.raw[: written.line]


def _fitting(
    function: Function, *words: Any, room: int, line_room: int = _LINE, has_line: bool = True
) -> Tuple[int, bytes, bytes]:
    """The same. Where a room is too small, the call is made again with one of eight times its size, up to the memory
    that there is: past that comes a MemoryError."""
    room = _number("room", room, 0, 1 << 62)
    while True:
        status, out, line = _call(function, *words, room=room, line_room=line_room, has_line=has_line)
        is_full, is_line_full = len(out) == room, len(line) == line_room
        if status != FAILED or not (is_full or is_line_full):
            return status, out, line
        room, line_room = 8 * max(room, 1) if is_full else room, 8 * line_room if is_line_full else line_room


def _text(function: Function, *words: Any, room: int, has_line: bool = True) -> bytes:
    """The text that a call writes, with status 0."""
    status, out, line = _fitting(function, *words, room=room, has_line=has_line)
    if status != 0:
        raise Error(status, out, line)
    return out


def compile(source: Text, *, edition: int = 1, libs: Optional[Libs] = None, room: int = _ROOM) -> bytes:
    """The code text of a source, and of the files that follow it: `libs` has the text of each by its name."""
    return _text(_library.b_compile_with, *_source(source, libs), _edition(edition), room=room)


def migrate(code: Text, *, room: int = _ROOM) -> bytes:
    """A code text of edition 1 as one of edition 2."""
    return _text(_library.b_migrate, *_bytes(code), room=room)


def check(
    source: Text, *, edition: int = 1, libs: Optional[Libs] = None, room: int = _ROOM
) -> List[Dict[str, Any]]:
    """What is wrong in a source: the faults, or the warnings, each with its file, line, column, message and fix. The
    file of the source itself is `-`."""
    words = (*_source(source, libs), _edition(edition))
    status, out, line = _fitting(_library.b_check_with, *words, room=room, has_line=False)
    if status >= FAILED:
        raise Error(status, out, line)
    return [json.loads(finding) for finding in out.splitlines()]


def format(source: Text, *, edition: int = 1, room: int = _ROOM) -> bytes:
    """A source laid out in one style."""
    return _text(_library.b_format, *_bytes(source), _edition(edition), room=room)


def list(source: Text, *, edition: int = 1, libs: Optional[Libs] = None) -> bytes:
    """The code of a source, beside its lines."""
    return _text(_library.b_list, *_source(source, libs), _edition(edition), room=_ROOM)


def map(source: Text, *, edition: int = 1, libs: Optional[Libs] = None) -> bytes:
    """Where each name of a source lies in memory."""
    return _text(_library.b_map, *_source(source, libs), _edition(edition), room=_ROOM)


def version() -> str:
    """The version of the library, and the logic that it was proved with."""
    return _text(_library.b_version, room=256, has_line=False).decode("ascii")


def _steps(steps: int) -> int:
    return _number("steps", steps, 0, _MOST)


def _rows(steps: Optional[int], start: int, last: Optional[int]) -> Tuple[int, int, int]:
    """How many steps are made, and which of them have rows, as a call takes it."""
    if last is not None:
        if start != 1:
            raise ValueError("start and last can't be given together")
        return _steps(STEPS if steps is None else steps), 1, _number("last", last, 1, _MOST)
    start = _number("start", start, 1, _MOST)
    return _steps(min(start - 1 + _SHOWN, _MOST) if steps is None else steps), start, 0


def _ran(function: Function, *words: Any, room: Optional[int], line_room: int = _LINE) -> Ran:
    if room is None:
        status, out, line = _fitting(function, *words, room=_ROOM, line_room=line_room)
    else:
        status, out, line = _call(function, *words, room=_number("room", room, 0, 1 << 62), line_room=line_room)
    if line or status >= 128:
        raise Error(status, out, line)
    return Ran(out, status)


def run(
    code: Text, input: Text = b"", *, steps: int = STEPS, room: Optional[int] = None, where: bool = False
) -> Ran:
    """What a code text does with an input. Past a room of so many bytes the run ends with FAILED; without one all of
    the output comes, for which a long one is run again. If it is asked for where, the line of an Error tells where the
    code text went wrong."""
    text, length = _bytes(code)
    function, line_room = (_library.b_run_where, length + 300) if where else (_library.b_run, _LINE)
    return _ran(function, text, length, *_bytes(input), _steps(steps), room=room, line_room=line_room)


def go(
    source: Text,
    input: Text = b"",
    *,
    edition: int = 1,
    steps: int = STEPS,
    libs: Optional[Libs] = None,
    room: Optional[int] = None,
) -> Ran:
    """What the program of a source does with an input. `room` is as for `run`, and `libs` as for `compile`."""
    words = (*_source(source, libs), *_bytes(input), _edition(edition), _steps(steps))
    return _ran(_library.b_go_with, *words, room=room)


def trace(
    source: Text,
    input: Text = b"",
    *,
    edition: int = 1,
    steps: Optional[int] = None,
    start: int = 1,
    last: Optional[int] = None,
    libs: Optional[Libs] = None,
) -> Ran:
    """The steps of the program of a source: 2000 from the number `start` on, where no number of steps is given, or so
    many of the last ones. An Error has the steps up to there as its output."""
    words = (*_source(source, libs), *_bytes(input), _edition(edition), *_rows(steps, start, last))
    return _ran(_library.b_trace, *words, room=None)


def count(
    source: Text,
    input: Text = b"",
    *,
    edition: int = 1,
    steps: int = STEPS,
    libs: Optional[Libs] = None,
    as_json: bool = False,
) -> Ran:
    """How often each line of a source is made: a table, or an object of JSON for each line that has code. An Error has
    the counts up to there as its output."""
    words = (*_source(source, libs), *_bytes(input), _edition(edition), _steps(steps), int(bool(as_json)))
    return _ran(_library.b_count, *words, room=None)


def show(
    source: Text,
    input: Text = b"",
    *,
    edition: int = 1,
    steps: Optional[int] = None,
    start: int = 1,
    last: Optional[int] = None,
    libs: Optional[Libs] = None,
) -> bytes:
    """A page that shows the run of the program of a source with this input. `start` and `last` are as for `trace`."""
    words = (*_source(source, libs), *_bytes(input), _edition(edition), *_rows(steps, start, last))
    return _text(_library.b_show, *words, room=4 * _ROOM)


class _Held(ctypes.Structure):
    _fields_ = [("run", ctypes.c_void_p), ("program", ctypes.c_void_p)]


class _Place(ctypes.Structure):
    _fields_ = [("function", ctypes.c_uint32), ("place", ctypes.c_size_t), ("callers", ctypes.c_size_t),
                ("steps", ctypes.c_uint64), ("line", ctypes.c_uint64)]


class _CodePlace(ctypes.Structure):
    _fields_ = [("function", ctypes.c_uint32), ("place", ctypes.c_size_t)]


class _Watched(ctypes.Structure):
    _fields_ = [("address", ctypes.c_uint16), ("word", ctypes.c_uint16)]


class _Stops(ctypes.Structure):
    _fields_ = [("places", ctypes.POINTER(_CodePlace)), ("place_count", ctypes.c_size_t),
                ("near", ctypes.POINTER(_CodePlace)), ("near_count", ctypes.c_size_t),
                ("callers", ctypes.c_size_t), ("returned", ctypes.c_size_t),
                ("words", ctypes.POINTER(_Watched)), ("word_count", ctypes.c_size_t)]


class _Frame(ctypes.Structure):
    _fields_ = [("function", ctypes.c_uint32), ("place", ctypes.c_size_t), ("start", ctypes.c_uint32),
                ("parameters", ctypes.c_uint16), ("line", ctypes.c_uint64), ("column", ctypes.c_uint64)]


class _Symbol(ctypes.Structure):
    _fields_ = [("name", ctypes.c_char * 9), ("kind", ctypes.c_uint8), ("parameters", ctypes.c_uint16),
                ("address", ctypes.c_uint32), ("words", ctypes.c_uint32), ("frame", ctypes.c_uint16),
                ("labels", ctypes.c_size_t), ("instructions", ctypes.c_size_t), ("line", ctypes.c_uint64),
                ("column", ctypes.c_uint64)]


class Place(NamedTuple):
    """Where a run stands: its function, by the address of its first string word, the place of its next instruction, how
    many calls are below, and how many steps were made; the line of that instruction, or 0, and the function's name; and
    the column in that line, in bytes from 1 on, or 0 where no file of lines tells it. Lines of files that follow a
    source count on; `file` is the name of the one that has it, or nothing, and `file_line` its line there."""

    function: int
    place: int
    callers: int
    steps: int
    line: int = 0
    name: str = ""
    column: int = 0
    file: str = ""
    file_line: int = 0


class Frame(NamedTuple):
    """An active call: its function, the place of its next instruction, the address of its frame, where its parameters
    and then its automatic words lie, how many parameters it has; the line and the column of that instruction, or of the
    call that it has made, or 0; and the function's name. `file` and `file_line` are as those of a Place."""

    function: int
    place: int
    start: int
    parameters: int
    line: int = 0
    column: int = 0
    name: str = ""
    file: str = ""
    file_line: int = 0


class Symbol(NamedTuple):
    """What a name stands for. Its kind is `function`, `simple` or `vector` for a definition; `parameter`, `automatic`
    or `automatic vector` for a word of a frame; `label` or `instruction`, which has no name.

    `address` is that of a definition, the offset of a word in its frame, or the place of a label or an instruction;
    `words` is how many words a definition takes, or a word of a frame with its vector. A function has so many
    parameters, words of its frame, these among them, labels and instructions. `function` is the address of its first
    string word, by which Place and Frame tell it; 0 for all else. `line` and `column` are those of a label or an
    instruction, or of the first one of a definition, or 0."""

    name: str
    kind: str
    address: int
    words: int = 0
    parameters: int = 0
    frame: int = 0
    labels: int = 0
    instructions: int = 0
    line: int = 0
    column: int = 0

    @property
    def function(self) -> int:
        return self.address + 1 if self.kind == "function" else 0


class End(NamedTuple):
    """Why a slice has ended: `halted` with a status, `trapped` with two letters, `limit`, or `wants input`; `stopped`
    before a step at which it was to stop; `serves`, where it waits for a `call`; or `has output` or `too large`, where
    more is there than the limits allow, which are of `operands` or of `pages`. Where `raise` of lib/raise.b has halted
    it, `text` is what that was given, and `at` the nearest caller that has a line of the source itself, if one has."""

    why: str
    status: int = 0
    trap: str = ""
    of: str = ""
    text: bytes = b""
    at: Optional[Frame] = None


_TRAPS = ("", "dz", "fn", "gt", "st", "dp", "bs", "sk")
_KINDS = ("", "function", "simple", "vector", "parameter", "automatic", "automatic vector", "label", "instruction")
_FIRST = 7  # the address of the first definition
_ASKS, _WAITS, _CALLS, _CALLED = (1, 5), (2, 6), 3, (5, 6)  # what lib/host.b says in the first word of its vector
_ANSWER = 7  # the word of it with an answer, after a name and up to five words
_QUEUE = 9  # how many words it takes, with the one of its address
_BUSY = "this session is in a call of another thread"
_UNBEGUN = b"trap st\n"  # where the memory has no room for the frame of `main`
_OF = ("", "operands", "pages")
_WHY = {LIMIT: "limit", FAILED: "wants input", HAS_OUTPUT: "has output", STOPPED: "stopped"}
_SLICE = 1_000_000
_STAYS: Any = object()  # a limit that isn't named
_ALL = ctypes.c_size_t(-1).value
_PAGES = 256


def _sessions(library: ctypes.CDLL) -> None:
    """Tells what the calls for sessions take."""
    held, text = ctypes.POINTER(_Held), [ctypes.c_char_p, ctypes.c_size_t]
    files, room = [ctypes.c_void_p, ctypes.c_size_t], [ctypes.c_void_p, ctypes.c_size_t]
    line = room + [ctypes.POINTER(_Written), held]
    takes: Dict[str, List[Any]] = {
        "load_with": text + files + [ctypes.c_uint8] + line,
        "load_code_with": text + text + text + line,
        "name_of": [held, ctypes.c_uint32] + room + [ctypes.POINTER(ctypes.c_size_t)],
        "find": [held] + text + [ctypes.POINTER(_Symbol)],
        "symbol_at": [held, ctypes.c_uint32, ctypes.POINTER(_Symbol)],
        "local": [held, ctypes.c_uint32, ctypes.c_size_t, ctypes.POINTER(_Symbol)],
        "label": [held, ctypes.c_uint32, ctypes.c_size_t, ctypes.POINTER(_Symbol)],
        "instruction": [held, ctypes.c_uint32, ctypes.c_uint32, ctypes.POINTER(_Symbol)],
        "begin": [held],
        "limit": [held, ctypes.c_size_t, ctypes.c_uint16, ctypes.c_size_t],
        "continue": [held, ctypes.c_uint64, ctypes.POINTER(ctypes.c_uint8)],
        "continue_to": [held, ctypes.POINTER(_Stops), ctypes.c_uint64, ctypes.POINTER(ctypes.c_uint8)],
        "frame": [held, ctypes.c_size_t, ctypes.POINTER(_Frame)],
        "feed": [held] + text,
        "close_input": [held],
        "output": [held] + room + [ctypes.POINTER(ctypes.c_size_t)],
        "place": [held, ctypes.POINTER(_Place)],
        "column": [held, ctypes.POINTER(ctypes.c_uint64)],
        "word": [held, ctypes.c_uint16, ctypes.POINTER(ctypes.c_uint16)],
        "set_word": [held, ctypes.c_uint16, ctypes.c_uint16],
        "copy": [held],
        "swap": [held, ctypes.c_size_t],
        "forget": [held, ctypes.c_size_t],
        "end": [held],
        "unload": [held],
    }
    for name, words in takes.items():
        function = getattr(library, f"b_{name}")
        function.argtypes, function.restype = words, ctypes.c_uint8


_sessions(_library)


class _Runs:
    """A program in memory, with the runs of the sessions that have it. One is the run of the library, and the others
    are the copies that it keeps, in this order. A session is told by an object of its own."""

    def __init__(self) -> None:
        self.held = _Held()
        self.running: Optional[object] = None
        self.kept: List[object] = []
        self._lock = threading.Lock()
        self._over: List[object] = []

    def call(self, own: object, function: Function, *words: Any) -> int:
        """What a call for one of the sessions answers, unless another thread is in one."""
        if not self._lock.acquire(blocking=False):
            raise RuntimeError(_BUSY)
        try:
            self._go_on_with(own)
            status: int = function(self.held, *words)
            return status
        finally:
            self._lock.release()
            self._let_go()

    def copy(self, own: object) -> object:
        """Keeps a copy of the run of a session, for another one."""
        other = object()

        def kept(held: _Held) -> int:
            status: int = _library.b_copy(held)
            if status == 0:
                self.kept.append(other)
            return status

        _expect(self.call(own, kept))
        return other

    def look(self) -> None:
        """Within a call the two pointers tell nothing."""
        if self._lock.locked():
            raise RuntimeError(_BUSY)

    def has(self, own: object) -> bool:
        """Whether a session has a run."""
        return own is self.running or own in self.kept

    def let_go(self, own: object) -> None:
        """Gives the run of a session back; and the program with the last one. Within a call that is done after it."""
        self._over.append(own)
        self._let_go()

    def _go_on_with(self, own: object) -> None:
        if own is not self.running and own in self.kept:
            number = self.kept.index(own)
            _expect(_library.b_swap(self.held, number))
            self.running, self.kept[number] = own, self.running

    def _let_go(self) -> None:
        while self._over and self._lock.acquire(blocking=False):
            try:
                self._end(self._over.pop())
            finally:
                self._lock.release()

    def _end(self, own: object) -> None:
        if self.kept:
            if own is self.running:
                self._go_on_with(self.kept[0])
            number = self.kept.index(own)
            _expect(_library.b_forget(self.held, number))
            del self.kept[number]
            return
        if self.held.run:
            _library.b_end(self.held)
        if self.held.program:
            _library.b_unload(self.held)


class Session:
    """A program that stays in memory, and its run, in slices.

      >>> talk = b.Session("main() { putchar(getchar()); }")
      >>> talk.go_on().why
      'wants input'
      >>> talk.feed("!"), talk.go_on().why, talk.output()
      (None, 'halted', b'!')

    However a run is cut into slices, it is the same run. A session is in one call at a time: a second one, of another
    thread, is a RuntimeError. What it has in memory goes with it, or by `close`, or at the end of a `with`.

    `libs` are the files that follow a source. With `code` it is a code text, of which `lines` and `names` are files of
    its author, as `b list --lines` and `--names` take them. `operands`, `pages` and `output` are as for `limit`."""

    def __init__(
        self,
        source: Text = b"",
        input: Text = b"",
        *,
        code: Optional[Text] = None,
        edition: int = 1,
        libs: Optional[Libs] = None,
        lines: Text = b"",
        names: Text = b"",
        operands: Optional[int] = None,
        pages: Optional[int] = None,
        output: Optional[int] = None,
    ) -> None:
        self._runs = _Runs()
        self._own = object()
        self._names: Dict[int, str] = {}
        self._files: List[Tuple[str, int, int]]
        self._ahead = b""
        self._serving: Serving = ({}, None, None)
        self._held_at_most = (operands, pages, output)
        self._limits = _limits(*self._held_at_most)
        if code is None and (lines or names):
            raise TypeError("lines and names are those of a code text")
        if code is not None and (source or libs or edition != 1):
            raise TypeError("a code text has no source, no files that follow it, and an edition of its own")
        self._program: Tuple[Any, ...]
        if code is None:
            self._program = (_library.b_load_with, *_source(source, libs), _edition(edition))
            self._files = _lines_of(source, libs or {})
        else:
            self._program = (_library.b_load_code_with, *_bytes(code), *_bytes(lines), *_bytes(names))
            self._files = [("", 0, _MOST)]
        self._load(*self._program)
        self.start(input)

    def _load(self, function: Function, *words: Any) -> None:
        """Puts the program in memory, or raises the Error with its line."""
        room = _LINE
        while True:
            line, written = ctypes.create_string_buffer(room), _Written()
            status = function(*words, line, room, written, self._runs.held)
            if status != FAILED or written.line < room:
                break
            room *= 8
        if status != 0:
            raise Error(status, b"", line.raw[: written.line])

    def start(self, input: Text = b"") -> None:
        """Begins the run anew, with this much of its input."""
        self._look_for_program()
        if self._runs.kept:
            self._leave()
            self._load(*self._program)
        elif self._runs.held.run:
            self._call(_library.b_end)
        self._runs.running, self._ahead = None, b""
        status = self._call(_library.b_begin)
        if status == TRAP:
            raise Error(status, b"", _UNBEGUN)
        _expect(status)
        self._runs.running = self._own
        _expect(self._call(_library.b_limit, *self._limits))
        if input:
            self.feed(input)

    def copy(self) -> "Session":
        """Another session that stands where this one does: with the same words, input, output and limits. From here on
        each goes on as this one would have, whatever is done with the other. They have the program in memory once, and
        so they are in one call at a time, all of them. One that is started anew, or closed, leaves the others."""
        self._look_for_run()
        own = self._runs.copy(self._own)
        copy: Session = object.__new__(type(self))
        copy.__dict__.update(self.__dict__, _own=own)
        return copy

    __copy__ = copy

    def limit(
        self, *, operands: Optional[int] = _STAYS, pages: Optional[int] = _STAYS, output: Optional[int] = _STAYS
    ) -> None:
        """How much the run may hold between two slices: so many operands, pages of 256 words of memory that have
        another word than 0, and bytes of output; with None there is no limit, and one that isn't named stays. That is
        looked at after each 65536 steps. A slice then ends with `has output` or `too large`, and the run can go on."""
        self._look_for_run()
        was = self._held_at_most
        self._held_at_most = (
            was[0] if operands is _STAYS else operands,
            was[1] if pages is _STAYS else pages,
            was[2] if output is _STAYS else output,
        )
        self._limits = _limits(*self._held_at_most)
        _expect(self._call(_library.b_limit, *self._limits))

    def go_on(self, steps: int = _SLICE) -> End:
        """Makes so many steps at most, and tells why it ends."""
        steps = _steps(steps)
        while True:
            now = min(steps, _SLICE)
            end = self._slice(now)
            steps -= now
            if end.why != "limit" or steps == 0:
                return end

    def go_to(
        self,
        places: Iterable[Tuple[int, int]] = (),
        *,
        near: Iterable[Tuple[int, int]] = (),
        callers: int = 0,
        returned: int = 0,
        words: Iterable[Tuple[int, int]] = (),
        steps: int = _SLICE,
    ) -> End:
        """Makes at least one step and so many at most, and stops before the first one after it that is at one of
        `places`, each a function and a place as `Place` has them; or at one of `near`, where no more than `callers`
        calls are below; or where fewer than `returned` calls are below; or where the word at an address of `words` is
        another one than it says. Then the End is `stopped`; else it tells what `go_on` tells."""
        steps = _steps(steps)
        stops = _stops(places, near, callers, returned, words)
        while True:
            now = min(steps, _SLICE)
            end = self._walk(stops, now)
            steps -= now
            if end.why != "limit" or steps == 0:
                return end

    def _walk(self, stops: _Stops, steps: int) -> End:
        self._look_for_run()
        value = ctypes.c_uint8()
        return self._end_of(self._call(_library.b_continue_to, stops, steps, value), value)

    def _slice(self, steps: int) -> End:
        self._look_for_run()
        value = ctypes.c_uint8()
        return self._end_of(self._call(_library.b_continue, steps, value), value)

    def _end_of(self, status: int, value: ctypes.c_uint8) -> End:
        """Why a slice has ended, by what a call answers."""
        if status == 0:
            return End("halted", value.value, "", "", *self._raised())
        if status == TRAP:
            return End("trapped", trap=_TRAPS[value.value])
        if status == TOO_LARGE:
            return End("too large", of=_OF[value.value])
        if status in _WHY:
            return End(_WHY[status])
        raise Error(status, b"", b"")

    def run(
        self,
        read: Optional[Callable[[], Text]] = None,
        write: Optional[Callable[[bytes], Any]] = None,
        *,
        steps: int = STEPS,
    ) -> End:
        """Runs on for so many steps at most. `read` is asked for more input where a byte lacks, and answers nothing at
        its end; `write` gets the output. Without `read` there is no more input, and without `write` the output stays.
        Between slices Python sees to signals, so an interrupt comes through within milliseconds."""
        parts = self._parts(read, steps, write is not None)
        while True:
            try:
                part = next(parts)
            except StopIteration as over:
                end: End = over.value
                return end
            if write is not None:
                write(part)

    def outputs(
        self, read: Optional[Callable[[], Text]] = None, *, steps: int = STEPS
    ) -> Generator[bytes, None, End]:
        """Runs on as `run` does, and gives what the program writes as it comes. The End is the generator's value."""
        return self._parts(read, steps, True)

    def _parts(
        self, read: Optional[Callable[[], Text]], steps: int, takes: bool
    ) -> Generator[bytes, None, End]:
        """Runs on, and gives the output where it is taken. It comes before what else is raised."""
        last = self.place().steps + _steps(steps)
        while True:
            try:
                end = self._slice(max(0, min(last - self.place().steps, _SLICE)))
            finally:
                output = self.output() if takes else b""
                if output:
                    yield output
            if end.why == "wants input":
                self._ask(read)
            elif not (end.why == "has output" and takes or end.why == "limit" and self.place().steps < last):
                return end

    def _ask(self, read: Optional[Callable[[], Text]]) -> None:
        """Feeds what `read` answers, or closes the input."""
        more = read() if read is not None else b""
        if more:
            self.feed(more)
        else:
            self.close_input()

    def serve(
        self,
        functions: Optional[Mapping[str, Callable[..., Optional[int]]]] = None,
        read: Optional[Callable[[], Text]] = None,
        write: Optional[Callable[[bytes], Any]] = None,
        *,
        steps: int = STEPS,
    ) -> End:
        """Runs on as `run` does, and answers each call of `host`, of lib/host.b, by the function of that name. It gets
        as many words as it takes, from -32768 to 32767, and answers one, or None for 0; a string or a vector is an
        address, of which `text` and `words` tell. No function of the name is a LookupError. What it raises comes out
        of `serve`, and the next `serve` calls it anew. Where the program waits in `serve`, the End is `serves`.

        The program gets a byte of its input at a time, and at its end as many `*e` as it asks for."""
        self._queue()
        self._serving = functions or {}, read, write
        return self._serve(_WAITS, steps)

    def call(self, name: Text, *words: int, steps: int = STEPS) -> int:
        """Calls a function of a program that waits, in `serve` of lib/host.b or for a function of the host, and gives
        its value. Meanwhile what was handed to `serve` answers and reads. A run that ends first is an Ended, as is one
        that made all its steps, or waits in `serve` anew: the next `serve` goes on with it."""
        function, queue = self.find(name), self._queue()
        if function is None or function.kind != "function":
            raise LookupError(f"the program has no function {name!r}")
        if self.word(queue) not in (*_ASKS, *_WAITS):
            raise ValueError("the program doesn't wait for a call")
        if len(words) > 5:
            raise TypeError("a call has five words at most")
        self.set_words(queue, [_CALLS, self.word(function.address), *words, *[0] * (5 - len(words))])
        self.feed(b"\n")
        end = self._serve((*_CALLED, *_WAITS), steps)
        if end.why != "serves" or self.word(queue) not in _CALLED:
            raise Ended(end)
        return _signed(self.word(queue + _ANSWER))

    def _serve(self, waits: Tuple[int, ...], steps: int) -> End:
        """Runs on to the end, or up to where the program waits with one of these states."""
        try:
            return self.run(lambda: self._reply(waits), self._serving[2], steps=steps)
        except _Serves:
            return End("serves")

    def _queue(self) -> int:
        """The address of the words by which program and host talk."""
        queue = self.find("hostq")
        if queue is None or queue.kind != "vector" or queue.words != _QUEUE:
            raise ValueError("the program has no lib/host.b")
        return queue.address + 1

    def _reply(self, waits: Tuple[int, ...]) -> Text:
        """What the program gets where it asks for a byte: of its input, or so that it looks at an answer."""
        queue = self._queue()
        state = self.word(queue)
        if state in waits:
            raise _Serves
        if state in _ASKS:
            self._answer(queue)
            return b"\n"
        if not self._ahead and self._serving[1] is not None:
            more = self._serving[1]()
            self._ahead = more.encode() if isinstance(more, str) else bytes(more)
        byte, self._ahead = self._ahead[:1], self._ahead[1:]
        return byte or b"\4"

    def _answer(self, queue: int) -> None:
        """Calls the function that the program asks for, and leaves its answer."""
        asked = self.words(queue, _ANSWER)
        name = self.text(asked[1]).decode("latin-1")
        function = self._serving[0].get(name)
        if function is None:
            raise LookupError(f"the host has no function {name!r}")
        answer = function(*[_signed(word) for word in asked[2 : 2 + _takes(function)]])
        self.set_words(queue + _ANSWER, [0 if answer is None else answer])
        self.set_word(queue, 0)

    def __iter__(self) -> Iterator[Place]:
        """Makes one step after another, and tells where the run stands before each, as long as it can go on."""
        while self._slice(0).why == "limit":
            yield self.place()
            if self._slice(1).why != "limit":
                return

    def feed(self, bytes: Text) -> None:
        """Adds bytes to the input."""
        self._look_for_run()
        status = self._call(_library.b_feed, *_bytes(bytes))
        if status == WRONG_EDITION:
            raise ValueError("the input of this session was closed")
        _expect(status)

    def close_input(self) -> None:
        """Tells that no more input comes."""
        self._look_for_run()
        _expect(self._call(_library.b_close_input))

    def output(self) -> bytes:
        """Takes what the program has written since."""
        self._look_for_run()
        room, count, parts = ctypes.create_string_buffer(_ROOM), ctypes.c_size_t(), []
        while True:
            _expect(self._call(_library.b_output, room, _ROOM, count))
            parts.append(room.raw[: count.value])
            if count.value < _ROOM:
                return b"".join(parts)

    def place(self) -> Place:
        """Where the run stands; after its end the call that ran before the last step."""
        self._look_for_run()
        place, column = _Place(), ctypes.c_uint64()
        _expect(self._call(_library.b_place, place))
        _expect(self._call(_library.b_column, column))
        name, file = self.name_of(place.function), self._file_of(place.line)
        return Place(place.function, place.place, place.callers, place.steps, place.line, name, column.value, *file)

    def frames(self) -> List[Frame]:
        """The active calls, the running one first: the backtrace. After the end of a run the first one is the call that
        ran before the last step."""
        return [*self._frames()]

    def _frames(self) -> Iterator[Frame]:
        self._look_for_run()
        frame, number = _Frame(), 0
        while (status := self._call(_library.b_frame, number, frame)) != REFUSED:
            _expect(status)
            number += 1
            yield Frame(frame.function, frame.place, frame.start, frame.parameters, frame.line, frame.column,
                        self.name_of(frame.function), *self._file_of(frame.line))

    def _file_of(self, line: int) -> Tuple[str, int]:
        """The file that has a line, and its number there."""
        file, before, _ = next((it for it in self._files if line <= it[2]), ("", 0, 0))
        return file, max(0, line - before)

    def _raised(self) -> Tuple[bytes, Optional[Frame]]:
        """What `raise` was given, if it has halted the run, and where the source itself stands."""
        frames = self._frames()
        top = next(frames)
        if top.name != "raise" or top.parameters == 0:
            return b"", None
        own = (it for it in frames if 0 < it.line <= self._files[0][2])
        return self.text(self.word(top.start)), next(own, None)

    def name_of(self, function: int) -> str:
        """The name of the function whose first string word has this address; nothing where none lies there."""
        self._look_for_program()
        if function not in self._names:
            number, room, count = _number("function", function, 0, 2**32 - 1), _LINE, ctypes.c_size_t()
            text = ctypes.create_string_buffer(room)
            status = self._call(_library.b_name_of, number, text, room, count)
            _expect(0 if status == REFUSED else status)
            self._names[function] = text.raw[: count.value].decode()
        return self._names[function]

    def find(self, name: Text) -> Optional[Symbol]:
        """The definition of a name, if there is one."""
        return self._symbol(_library.b_find, *_bytes(name))

    def symbol_at(self, address: int) -> Optional[Symbol]:
        """The definition of which the word at an address is one, if there is one."""
        return self._symbol(_library.b_symbol_at, _number("address", address, 0, 2**32 - 1))

    def symbols(self) -> Iterator[Symbol]:
        """All definitions, in the order of memory."""
        at = _FIRST
        while (symbol := self.symbol_at(at)) is not None:
            yield symbol
            at = symbol.address + symbol.words

    def locals(self, function: int) -> Iterator[Symbol]:
        """The named words of the frame of the function whose first string word has this address, the parameters first.
        A code text has none without its author's file of names."""
        return self._symbols(_library.b_local, function)

    def labels(self, function: int) -> Iterator[Symbol]:
        """The labels of a function, in order."""
        return self._symbols(_library.b_label, function)

    def instructions(self, function: int) -> Iterator[Symbol]:
        """The instructions of a function, with their lines and columns."""
        return self._symbols(_library.b_instruction, function)

    def _symbols(self, call: Function, function: int) -> Iterator[Symbol]:
        """What a function has, one after the other."""
        function, number = _number("function", function, 0, 2**32 - 1), 0
        while (symbol := self._symbol(call, function, number)) is not None:
            yield symbol
            number += 1

    def _symbol(self, call: Function, *words: Any) -> Optional[Symbol]:
        """What a call tells, or None where there is nothing."""
        self._look_for_program()
        it = _Symbol()
        status = self._call(call, *words, it)
        if status == REFUSED:
            return None
        _expect(status)
        return Symbol(it.name.decode(), _KINDS[it.kind], it.address, it.words, it.parameters, it.frame, it.labels,
                      it.instructions, it.line, it.column)

    def word(self, address: int) -> int:
        """The word at an address."""
        self._look_for_run()
        word = ctypes.c_uint16()
        _expect(self._call(_library.b_word, _number("address", address, 0, 65535), word))
        return word.value

    def set_word(self, address: int, word: int) -> None:
        """Stores a word at an address."""
        self._look_for_run()
        address, word = _number("address", address, 0, 65535), _number("word", word, 0, 65535)
        _expect(self._call(_library.b_set_word, address, word))

    def words(self, address: int, count: int) -> List[int]:
        """So many words from an address on, each from 0 to 65535. Memory goes on at 0 after 65535."""
        return [self.word((address + at) % 65536) for at in range(count)]

    def set_words(self, address: int, words: Iterable[int]) -> None:
        """Stores words from an address on, each from -32768 to 65535."""
        for at, word in enumerate([_number("word", it, -32768, 65535) % 65536 for it in words]):
            self.set_word((address + at) % 65536, word)

    def text(self, address: int, most: int = 32767) -> bytes:
        """The string at an address, without its `*e`, or so many bytes of it."""
        text = bytearray()
        while len(text) < most:
            pair = self.words(address + len(text) // 2, 1)[0].to_bytes(2, "little")
            end = pair.find(4)
            text += pair if end < 0 else pair[:end]
            if end >= 0:
                break
        return bytes(text[:most])

    def set_text(self, address: int, text: Text) -> None:
        """Stores a string and its `*e` from an address on: half as many words as bytes, and one more."""
        data = (text.encode() if isinstance(text, str) else bytes(text)) + b"\4"
        if len(data) % 2 != 0:
            data += self.words(address + len(data) // 2, 1)[0].to_bytes(2, "little")[1:]
        self.set_words(address, [int.from_bytes(data[at : at + 2], "little") for at in range(0, len(data), 2)])

    def close(self) -> None:
        """Gives all of it back."""
        self._runs.look()
        self._leave()

    def _leave(self) -> None:
        """Gives its run back, and has no program from here on."""
        runs, self._runs = self._runs, _Runs()
        runs.let_go(self._own)

    def __enter__(self) -> "Session":
        return self

    def __exit__(self, *failure: object) -> None:
        self.close()

    def __del__(self) -> None:
        if hasattr(self, "_runs"):
            self._leave()

    def _call(self, function: Function, *words: Any) -> int:
        """What a call for this session answers, unless another thread is in one."""
        return self._runs.call(self._own, function, *words)

    def _look_for_program(self) -> None:
        self._runs.look()
        if not self._runs.held.program:
            raise ValueError("this session was closed")

    def _look_for_run(self) -> None:
        self._look_for_program()
        if not self._runs.has(self._own):
            raise ValueError("this session has no run")


def _lines_of(source: Text, libs: Libs) -> List[Tuple[str, int, int]]:
    """Each file of a source, by its name: how many lines are before it, and up to its last one."""
    files, before = [], 0  # type: List[Tuple[str, int, int]], int
    for name, text in [("", source), *libs.items()]:
        last = before + 1 + _bytes(text)[0].count(b"\n")
        files.append((_bytes(name)[0].decode("utf-8", "replace"), before, last))
        before = last
    return files


def _stops(
    places: Iterable[Tuple[int, int]],
    near: Iterable[Tuple[int, int]],
    callers: int,
    returned: int,
    words: Iterable[Tuple[int, int]],
) -> _Stops:
    """Before which steps a slice stops, as a call takes it."""
    broken = [_CodePlace(*it) for it in places]
    close = [_CodePlace(*it) for it in near]
    watched = [_Watched(_number("address", at, 0, 65535), _number("word", word, 0, 65535)) for at, word in words]
    return _Stops(
        (_CodePlace * max(1, len(broken)))(*broken), len(broken),
        (_CodePlace * max(1, len(close)))(*close), len(close),
        _number("callers", callers, 0, _ALL), _number("returned", returned, 0, _ALL),
        (_Watched * max(1, len(watched)))(*watched), len(watched),
    )


def _limits(operands: Optional[int], pages: Optional[int], output: Optional[int]) -> Tuple[int, int, int]:
    """The limits of a run, as a call takes them."""
    return (
        _ALL if operands is None else _number("operands", operands, 0, _ALL),
        _PAGES if pages is None else _number("pages", pages, 0, _PAGES),
        _ALL if output is None else _number("output", output, 0, _ALL),
    )


def _signed(word: int) -> int:
    """A word as a number from -32768 to 32767."""
    return word - 65536 if word > 32767 else word


def _takes(function: Callable[..., Any]) -> int:
    """How many words a function of the host takes, five at most."""
    try:
        parameters = inspect.signature(function).parameters.values()
    except ValueError:  # of a function in C that doesn't tell
        return 5
    if any(it.kind is it.VAR_POSITIONAL for it in parameters):
        return 5
    return min(5, sum(it.kind in (it.POSITIONAL_ONLY, it.POSITIONAL_OR_KEYWORD) for it in parameters))


def _expect(status: int) -> None:
    """Raises what a call answers other than that all is well."""
    if status != 0:
        raise Error(status, b"", b"")
