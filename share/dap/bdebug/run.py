"""The run of a program, which goes forwards, and back.

A run is decided by its source, its input and the words that the user stores, so each state of it is a number of steps.
To go back is to take the last checkpoint before there, or to begin anew, and to make the steps from there on; the
machine makes some 10^8 of them in a second."""
import time
from typing import Any, Callable, FrozenSet, List, NamedTuple, Optional, Tuple

from .program import Refused
from .words import library

SLICE = 2_000_000  # steps of plain running between two looks at what the user wants
SPACING = 2_000_000  # steps between two checkpoints, at first
MOST_KEPT = 64  # checkpoints; where there are more, each second one goes, and the spacing doubles
FIRST_WINDOW, WIDER = 32, 16  # steps that are looked through for the last stop before this one
MOST_HITS = 1000  # in a window, before its later half is looked through alone
QUICK, SLOW = .01, .05  # seconds that a slice with stops should take


class Interrupted(Exception):
    """The user has asked to pause, so the run stays where it is."""


class Stops(NamedTuple):
    """Before which steps a run stops: at `places`, which are pairs of a function and a place; at `near` where at most
    `callers` calls are below; where fewer than `returned` calls are below; and after a step that changed one of
    `words`, which are addresses."""

    places: FrozenSet = frozenset()
    near: FrozenSet = frozenset()
    callers: int = 0
    returned: int = 0
    words: Tuple = ()

    def asks_for(self, place) -> bool:
        """Whether it stops at this place, whatever the words are."""
        here = (place.function, place.place)
        return here in self.places or place.callers <= self.callers and here in self.near \
            or place.callers < self.returned


class Store(NamedTuple):
    """A word that the user stored, after so many steps."""

    steps: int
    address: int
    word: int


class Checkpoint(NamedTuple):
    """A copy of the session after so many steps, how much it had written, how many words had been put back, and how
    much it had been fed."""

    steps: int
    written: int
    applied: int
    fed: int
    is_closed: bool
    session: Any  # a session of the library


class Frame(NamedTuple):
    """An active call: its function and its next place, the address of its frame, and its line in all files together."""

    function: int
    place: int
    start: int
    line: int
    name: str


class Run:
    """A run, with its input so far, which `is_whole` where no more comes. `by_steps` makes one step after another in
    Python, as it is done where the library has no `go_to`. `is_paused` is asked now and then; where it answers so,
    Interrupted is raised. `on_end_of_input` is called when the program first reads past a whole input."""

    def __init__(self, program, given: bytes = b"", is_whole: bool = False, by_steps: bool = False):
        self.program, self.session = program, program.session()
        self.by_steps = by_steps or not hasattr(self.session, "go_to")
        self.input, self.is_whole, self.is_closed = bytearray(given), is_whole, False
        self.stores: List[Store] = []
        self.is_paused: Callable[[], bool] = lambda: False
        self.on_end_of_input: Callable[[], None] = lambda: None
        self.most = None  # steps that the user allows
        self.changed: List[int] = []  # of the words of the last stops
        self.shown, self.pending, self._slice, self._calls = 0, bytearray(), 1000, None
        self.checkpoints: List[Checkpoint] = []
        self.spacing, self.can_keep = SPACING, hasattr(self.session, "copy") and not self.by_steps
        self._begin()

    def _begin(self):
        self.session.start(bytes(self.input))
        if self.is_closed:
            self.session.close_input()
        self.end = self._frames = None  # how the run is over
        self.written = self.applied = 0
        self._arrive(None)

    def restart(self) -> None:
        """Begins anew, without what the user stored."""
        self.stores, self.shown, self._calls, self.is_closed = [], 0, None, False
        self._forget(lambda it: False)
        self._begin()

    # Checkpoints.

    def _forget(self, stays: Callable[[Checkpoint], bool]) -> None:
        """Gives up all checkpoints but those that stay."""
        for it in self.checkpoints:
            if not stays(it):
                it.session.close()
        self.checkpoints = [it for it in self.checkpoints if stays(it)]

    def _keep(self) -> None:
        """Leaves a checkpoint here, where the last one before is far."""
        last = max((it.steps for it in self.checkpoints if it.steps <= self.steps), default=0)
        if not self.can_keep or self.end is not None or self.steps - last < self.spacing:
            return
        try:
            copy = self.session.copy()
        except (MemoryError, library().Error):
            self.can_keep = False
            return
        fed = (len(self.input), self.is_closed)
        self.checkpoints.append(Checkpoint(self.steps, self.written, self.applied, *fed, copy))
        self.checkpoints.sort(key=lambda it: it.steps)
        if len(self.checkpoints) > MOST_KEPT:
            thinned = self.checkpoints[1::2]
            self._forget(lambda it: it in thinned)
            self.spacing *= 2

    def _go_back(self, steps: int) -> None:
        """Goes to the last checkpoint that is no later than so many steps, or begins anew, as where there is no memory
        for a copy of it."""
        it = next((it for it in reversed(self.checkpoints) if it.steps <= steps), None)
        try:
            session = it and it.session.copy()
        except (MemoryError, library().Error):
            session = None
        if session is None:
            self._begin()
            return
        self.session.close()
        self.session, self.end, self.written, self.applied = session, None, it.written, it.applied
        if it.fed < len(self.input):
            session.feed(bytes(self.input[it.fed:]))
        if self.is_closed and not it.is_closed:
            session.close_input()
        self._arrive(None)

    # Where it stands.

    @property
    def steps(self) -> int:
        return self.place.steps

    def word(self, address: int) -> int:
        return self.session.word(address & 0xFFFF)

    def frames(self) -> List[Frame]:
        """The active calls, the running one first."""
        if self._frames is None:
            self._frames = self._frames_by_steps() if self.by_steps else self._told_frames()
        return self._frames

    def _told_frames(self):
        return [self._frame(it.function, it.place, it.start, at > 0) for at, it in enumerate(self.session.frames())]

    def _frames_by_steps(self):
        self._calls = self._calls if self._calls is not None and self._calls.serves(self) else CallsByStep(self)
        start, frames = self.program.data_end, []
        calls = self._calls.until(self.steps)
        for at, (function, place) in enumerate(calls):
            frames.insert(0, self._frame(function, place, start, at + 1 < len(calls)))
            start += self.program.functions[function].frame
        return frames

    def _frame(self, address, place, start, has_called):
        function = self.program.functions[address]
        line = function.line_of_caller(place) if has_called else function.line_of(place)
        return Frame(address, place, start, line, function.name)

    # What the user gives.

    def feed(self, text: bytes) -> None:
        """Adds to the input."""
        if self.is_whole:
            raise Refused("the input was closed")
        self.session.feed(text)
        self.input += text
        self._calls = None

    def close_input(self) -> None:
        """No more input comes. The machine learns so when the program reads past what there is."""
        self.is_whole = True

    def _end_input(self, end):
        """The End in the place of one that wants input where none comes."""
        if end is None or end.why != "wants input" or not self.is_whole:
            return end
        self.session.close_input()
        self.is_closed, self._calls = True, None
        self.on_end_of_input()
        return library().End("limit")

    def store(self, address: int, word: int) -> None:
        """Stores a word here. What was stored later than this step is no more: the run goes another way."""
        store = Store(self.steps, address & 0xFFFF, word & 0xFFFF)
        self.session.set_word(store.address, store.word)
        self._forget(lambda it: it.steps <= store.steps and it.applied <= self.applied)
        self.stores[self.applied:] = [store]
        self.applied, self.shown, self._calls = len(self.stores), self.written, None

    def take_output(self) -> bytes:
        """What the program has written and wasn't taken yet. What is written again after going back isn't in it."""
        text, self.pending = bytes(self.pending), bytearray()
        return text

    # Going.

    def _arrive(self, end):
        """Notes where the run has come to, and puts back what the user stored there."""
        self.place, text = self.session.place(), self.session.output()
        self._frames = None
        self.pending += text[max(0, self.shown - self.written):]
        self.written += len(text)
        self.shown = max(self.shown, self.written)
        end = self._end_input(end)
        if end is not None and end.why in ("halted", "trapped"):
            self.end = end
        while self.applied < len(self.stores) and self.stores[self.applied].steps <= self.steps:
            self.session.set_word(*self.stores[self.applied][1:])
            self.applied += 1
        self._keep()
        return end

    def _room(self, steps):
        """How many of these steps are made before the next word is put back."""
        next_store = self.stores[self.applied].steps if self.applied < len(self.stores) else self.steps + steps
        return min(steps, next_store - self.steps)

    def forward(self, stops: Stops, steps: int):
        """Makes at least one step and at most so many, up to one of the stops, and answers the End: `limit` where it
        came to none."""
        if self.end is not None:
            return self.end
        last = self.steps + steps
        end = library().End("limit")
        while self.steps < last and end.why == "limit":
            room, watched = self._room(last - self.steps), [(it, self.session.word(it)) for it in stops.words]
            end = self._arrive(self._go(stops, watched, room))
            self.changed = [at for at, word in watched if self.session.word(at) != word]
        return end

    def slice(self, stops: Stops):
        """The same for as many steps as take some hundredths of a second."""
        before, steps = time.monotonic(), self._slice
        if self.most is not None:
            steps = max(1, min(steps, self.most - self.steps))
        end = self.forward(stops, steps)
        took = time.monotonic() - before
        self._slice = min(2 * self._slice, SLICE) if took < QUICK else self._slice // 2 if took > SLOW else self._slice
        return end

    def _go(self, stops, watched, steps):
        if self.by_steps:
            return self._go_by_steps(stops, watched, steps)
        is_plain = stops == Stops(callers=stops.callers)
        return self.session.go_on(steps) if is_plain else self._go_to(stops, watched, steps)

    def _go_to(self, stops, watched, steps):
        how = {"near": stops.near, "callers": stops.callers, "returned": stops.returned}
        return self.session.go_to(stops.places, words=watched, steps=steps, **how)

    def _go_by_steps(self, stops, watched, steps):
        session = self.session
        for _ in range(steps):
            end = session.go_on(1)
            if end.why != "limit":
                return end
            if stops.asks_for(session.place()) or any(session.word(at) != word for at, word in watched):
                return end._replace(why="stopped")
        return library().End("limit")

    def travel(self, steps: int) -> None:
        """Goes to the state after so many steps, or to the end of the run where that comes before."""
        if steps < self.steps or self.end is not None:
            self._go_back(steps)
        end = library().End("limit")
        while self.steps < steps and end.why == "limit":
            if self.is_paused():
                raise Interrupted
            end = self._arrive(self.session.go_on(self._room(min(steps - self.steps, SLICE))))

    def backward(self, stops: Stops, accepts: Callable[[], bool] = lambda: True) -> bool:
        """Goes to the last stop before this step for which `accepts` says so, when the run stands there. Where there is
        none it goes to the first step, and answers that it has found none."""
        above, width = self.steps, FIRST_WINDOW
        while above > 0:
            below = max(0, above - width)
            found = self._last_stop(stops, accepts, below, above)
            if found is not None:
                self.travel(found)
                return True
            above, width = below, width * WIDER
        self.travel(0)
        return False

    def _last_stop(self, stops, accepts, below, above) -> Optional[int]:
        """The last stop from one step on and before another."""
        self.travel(max(0, below - 1))
        last = 0 if below == 0 and above > 0 and stops.asks_for(self.place) and accepts() else None
        hits = 0
        while self.steps < above - 1 and self._looks_on(stops, above - 1 - self.steps):
            last = self.steps if accepts() else last
            hits += 1
            if hits % MOST_HITS == 0 and above - self.steps > FIRST_WINDOW:
                here, middle = self.steps, (self.steps + above) // 2
                later = self._last_stop(stops, accepts, middle, above)
                if later is not None:
                    return later
                above = middle
                self.travel(here)
        return last

    def _looks_on(self, stops, steps):
        """Goes on to the next stop, and tells whether one came within so many steps."""
        last, end = self.steps + steps, library().End("limit")
        while self.steps < last and end.why == "limit":
            if self.is_paused():
                raise Interrupted
            end = self.forward(stops, min(last - self.steps, self._slice))
        return end.why == "stopped"


class CallsByStep:
    """The active calls of a run, found by making its steps once more, one by one."""

    def __init__(self, run):
        self.session, self.stores, self.left = run.program.session(), list(run.stores), list(run.stores)
        self.session.feed(bytes(run.input))
        if run.is_closed:
            self.session.close_input()
        self.place, self.below = self.session.place(), []
        self._put_back()

    def serves(self, run):
        return self.place.steps <= run.steps and self.stores == run.stores

    def _put_back(self):
        while self.left and self.left[0].steps <= self.place.steps:
            self.session.set_word(*self.left.pop(0)[1:])

    def until(self, steps) -> List[Tuple[int, int]]:
        """The function and the place of each call after so many steps, the first one first."""
        while self.place.steps < steps and self.session.go_on(1).why == "limit":
            before, self.place = self.place, self.session.place()
            if self.place.callers > before.callers:
                self.below.append((before.function, before.place + 1))
            elif self.place.callers < before.callers:
                self.below.pop()
            self._put_back()
        return [*self.below, (self.place.function, self.place.place)]
