"""What a debugger does with a run: breakpoints, watchpoints, steps of lines and of instructions, forwards and back.

What goes on for long is a generator: it yields between two slices, so that its caller can look for other wishes, and
its value is the Halt with the reason why it ends."""
import re
from typing import Callable, Generator, List, NamedTuple, Optional, Tuple

from .evaluate import Fault, Scope, Value, evaluate
from .program import Function, Program
from .run import Frame, Interrupted, Run, Stops
from .words import character, signed, string_at

TRAPS = {
    "dz": "division by 0", "fn": "a call of what is no function", "gt": "a goto to no label of the function",
    "st": "a frame past the end of memory", "dp": "more than 4096 active calls", "bs": "a base that isn't 2 to 10",
    "sk": "too few operands, or no instruction here",
}
FILTERS = {"trap": "Traps", "limit": "The limit of steps", "halt": "The end of the program", "input": "Wanted input"}
_HITS = re.compile(r"\s*(==|=|>=|>|<=|<|%)?\s*(\d{1,18})\s*$")
_COUNTS = {
    "==": int.__eq__, "=": int.__eq__, ">=": int.__ge__, ">": int.__gt__, "<=": int.__le__, "<": int.__lt__,
    "%": lambda count, number: number > 0 and count % number == 0,
}
Motion = Generator[None, None, "Halt"]


class Halt(NamedTuple):
    """Why a run stands: its reason is entry, step, breakpoint, watch, pause, limit, input, trapped or halted; what is
    told of it; and the numbers of the breakpoints."""

    reason: str
    text: str = ""
    hits: Tuple[int, ...] = ()

    @property
    def is_over(self) -> bool:
        return self.reason in ("trapped", "halted")


class Breakpoint:
    """A breakpoint at places, or with an address a watchpoint. `condition` is an expression, `hits` counts, as `5` or
    `% 3`, and `log` is written in place of a stop, with the values of expressions in braces."""

    def __init__(self, number: int, places=(), *, address=None, line=0, told="", condition="", hits="", log=""):
        self.number, self.places, self.address, self.line, self.told = number, tuple(places), address, line, told
        self.condition, self.hits, self.log, self.count = condition, hits, log, 0

    def counts(self) -> bool:
        """Counts a hit, and tells whether it is one to stop at."""
        self.count += 1
        found = _HITS.match(self.hits)
        return found is None or _COUNTS[found[1] or "=="](self.count, int(found[2]))


def are_hits(text: str) -> bool:
    """Whether it is a count of hits."""
    return not text.strip() or _HITS.match(text) is not None


class Debugger:
    """A program with its run and its breakpoints. `write` gets what the debugger itself tells."""

    def __init__(self, program: Program, run: Run, write: Callable[[str], None] = lambda text: None):
        self.program, self.run, self.write = program, run, write
        self.breakpoints: List[Breakpoint] = []
        self.number = 0
        self.again: Callable[[], Motion] = self.going  # goes on with what wanted input
        run.on_end_of_input = lambda: self.write("the input has ended: getchar gives '*e' from here on\n")

    def next_number(self) -> int:
        self.number += 1
        return self.number

    # Names and values.

    def function_of(self, frame: Frame) -> Function:
        return self.program.functions[frame.function]

    def frame(self, at: int) -> Frame:
        frames = self.run.frames()
        if not 0 <= at < len(frames):
            raise Fault("there is no such call")
        return frames[at]

    def named(self, name: str, frame: Optional[Frame]) -> Tuple[int, int]:
        """The address of a name, and the words of its vector, or 0."""
        found = next((it for it in self.function_of(frame).locals if it.name == name), None) if frame else None
        if found is not None:
            return frame.start + found.offset, found.vector
        external = self.program.externals.get(name)
        if external is None:
            raise Fault(f"{name} is no name here")
        return external.address, external.words - 1 if external.kind == "vector" else 0

    def value(self, text: str, at: Optional[int] = 0, may_store: bool = False) -> Value:
        """The value of an expression in a call, of which the running one has number 0."""
        frame = self.frame(at) if at is not None else None
        store = self.run.store if may_store else None
        return evaluate(text, Scope(lambda name: self.named(name, frame)[0], self.run.word, store))

    def shown(self, word: int, is_hex: bool = False) -> str:
        """A word as a number, and as the character or the string that it may be."""
        number = f"0x{word:04x}" if is_hex else str(signed(word))
        is_text = 7 <= word < self.program.data_end
        also = character(word) or (string_at(word, self.run.word) if is_text else "")
        return f"{number} {also}" if also else number

    # Breakpoints.

    def stops(self, want: Stops = Stops()) -> Stops:
        """What a step wants, and all breakpoints."""
        places = frozenset(place for it in self.breakpoints for place in it.places)
        words = tuple(sorted({it.address for it in self.breakpoints if it.address is not None}))
        return want._replace(places=want.places | places, words=words)

    def holds(self, breakpoint: Breakpoint) -> bool:
        """Whether its condition holds; one that has no value is told, and holds."""
        if not breakpoint.condition.strip():
            return True
        try:
            return self.value(breakpoint.condition).word != 0
        except Fault as fault:
            self.write(f"the condition {breakpoint.condition!r}: {fault}\n")
            return True

    def met(self) -> List[Breakpoint]:
        """The breakpoints that are met here, whatever their conditions say."""
        here = (self.run.place.function, self.run.place.place)
        return [it for it in self.breakpoints if here in it.places or it.address in self.run.changed]

    def hit(self) -> Optional[Halt]:
        """The Halt where a breakpoint stops the run here; log points are written."""
        hits = [it for it in self.met() if self.holds(it) and it.counts()]
        for it in hits:
            if it.log:
                self.write(self.logged(it.log) + "\n")
        hits = [it for it in hits if not it.log]
        return self.halt_at(hits) if hits else None

    def halt_at(self, hits: List[Breakpoint]) -> Halt:
        watches = [it for it in hits if it.address is not None]
        told = ", ".join(f"{it.told} = {self.shown(self.run.word(it.address))}" for it in watches)
        return Halt("watch" if watches else "breakpoint", told, tuple(it.number for it in hits))

    def logged(self, text: str) -> str:
        def value(found):
            try:
                return self.shown(self.value(found[1]).word)
            except Fault as fault:
                return f"{{{fault}}}"

        return re.sub(r"\{([^{}]*)\}", value, text)

    # Going on.

    def going(self, want: Optional[Stops] = None) -> Motion:
        """Goes on to a breakpoint, to what a step wants, or to the end."""
        want = want or Stops()
        self.again = lambda: self.going(want)
        while True:
            end = self.run.slice(self.stops(want))
            halt = self.halt_of(end, want)
            if halt is not None:
                return halt
            yield

    def halt_of(self, end, want: Stops) -> Optional[Halt]:
        if end.why == "stopped":
            return self.hit() or (Halt("step") if want.asks_for(self.run.place) else None)
        if end.why == "wants input":
            return Halt("input", "the program wants input")
        if end.why == "halted":
            return Halt("halted", f"the program has ended with status {end.status}")
        if end.why == "trapped":
            return Halt("trapped", f"trap {end.trap}: {TRAPS.get(end.trap, '')}")
        is_most = self.run.most is not None and self.run.steps >= self.run.most
        return Halt("limit", f"{self.run.most} steps were made") if is_most else None

    def stepping(self, instructions: int = 1) -> Motion:
        """Makes so many steps of the machine."""
        last = self.run.steps + instructions
        self.again = lambda: self.stepping(last - self.run.steps)
        while True:
            end = self.run.forward(Stops(), min(last - self.run.steps, 1_000_000))
            halt = self.halt_of(end, Stops()) or (Halt("step") if self.run.steps >= last else None)
            if halt is not None:
                return halt
            yield

    def over(self, is_instruction: bool = False) -> Motion:
        """To the next line of this call, or back to its caller."""
        place, function = self.run.place, self.program.functions[self.run.place.function]
        line = function.line_of(place.place)
        near = function.begins_at(lambda other: other != line)
        if is_instruction:
            near = frozenset((function.address, it.place) for it in function.code)
        return self.going(Stops(near=near, callers=place.callers, returned=place.callers))

    def into(self, is_instruction: bool = False) -> Motion:
        """To the next line, in a function that is called or in this one."""
        if is_instruction:
            return self.stepping()
        place, function = self.run.place, self.program.functions[self.run.place.function]
        line = function.line_of(place.place)
        entries = frozenset((it, 0) for it in self.program.functions)
        near = function.begins_at(lambda other: other != line)
        return self.going(Stops(entries, near, place.callers, place.callers))

    def out(self, at: int = 0) -> Motion:
        """Back to the caller of a call; of `main` to the end."""
        return self.going(Stops(returned=max(0, self.run.place.callers - at)))

    # Going back. Each of these answers at once, or is Interrupted where the run stands then.

    def back(self, search: Callable[[], Halt]) -> Halt:
        try:
            return search()
        except Interrupted:
            return Halt("pause")

    def back_instruction(self) -> Halt:
        """One step of the machine back."""
        if self.run.steps == 0:
            return self.entry()
        self.run.travel(self.run.steps - 1)
        return Halt("step")

    def entry(self) -> Halt:
        return Halt("entry", "the first step")

    def back_over(self) -> Halt:
        """To the begin of this line, or of the line before it in this call, or of the line of the caller."""
        while True:
            place, function = self.run.place, self.program.functions[self.run.place.function]
            begins = function.begins_at(lambda line: True)
            if not self.run.backward(Stops(near=begins, callers=place.callers, returned=place.callers)):
                return self.entry()
            if self.run.place.callers == place.callers:
                return self.begin_of_loop()

    def begin_of_loop(self) -> Halt:
        """From a begin of a line to the first one, where the line jumps back into itself."""
        place, function = self.run.place, self.program.functions[self.run.place.function]
        line = function.line_of(place.place)
        if line not in function.loops:
            return Halt("step")
        others = function.begins_at(lambda other: other != line)
        depth = place.callers
        self.run.backward(Stops(near=others, callers=depth, returned=depth))
        own = Stops(near=function.begins_at(lambda other: other == line), callers=depth)
        while self.run.steps < place.steps and not (self.run.place.callers == depth and own.asks_for(self.run.place)):
            self.run.forward(own, place.steps - self.run.steps)
        return Halt("step") if self.run.steps else self.entry()

    def back_into(self) -> Halt:
        """To the last begin of a line before this step, in any call."""
        begins = frozenset().union(*(it.begins_at(lambda line: True) for it in self.program.functions.values()))
        return Halt("step") if self.run.backward(Stops(places=begins)) else self.entry()

    def back_out(self) -> Halt:
        """To where this call was made."""
        return Halt("step") if self.run.backward(Stops(returned=self.run.place.callers)) else self.entry()

    def back_on(self) -> Halt:
        """To the last breakpoint before this step. Counts of hits and log points aren't looked at."""
        def accepts():
            found = [it for it in self.met() if not it.log and self.holds(it)]
            last[:] = found or last
            return bool(found)

        last: List[Breakpoint] = []
        return self.halt_at(last) if self.run.backward(self.stops(), accepts) else self.entry()


def names_of(debugger: Debugger, frame: Frame) -> List[Tuple[str, int, int]]:
    """The words of a call: of each its name, its address, and the words of its vector, or 0."""
    function = debugger.function_of(frame)
    return [(it.name, frame.start + it.offset, it.vector) for it in function.locals]


def externals_of(debugger: Debugger) -> List[Tuple[str, int, int]]:
    """The same of the data of the program."""
    data = [it for it in debugger.program.externals.values() if it.kind in ("simple", "vector")]
    return [(it.name, it.address, it.words - 1 if it.kind == "vector" else 0) for it in data]


