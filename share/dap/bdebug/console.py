"""The debugger for a person: the words of gdb, typed on a terminal or read from a pipe."""
import cmd
import contextlib
import signal
import sys
from typing import Optional

from .debugger import Breakpoint, Debugger, Halt, Motion, externals_of, names_of
from .evaluate import Fault
from .program import Program, Refused, read_file
from .run import Run
from .words import library

with contextlib.suppress(ImportError):
    import readline  # noqa: F401  edits the line

SHORT = {
    "b": "break", "r": "run", "n": "next", "s": "step", "c": "continue", "p": "print", "bt": "backtrace", "l": "list",
    "d": "delete", "q": "quit", "h": "help", "i": "info", "fin": "finish", "si": "stepi", "ni": "nexti",
    "rs": "reverse_step", "rn": "reverse_next", "rc": "reverse_continue", "rsi": "reverse_stepi", "f": "frame",
    "where": "backtrace", "EOF": "quit",
}
MOST_SHOWN = 200  # words of a vector, and calls


class Console(cmd.Cmd):
    """One session of debugging by commands. An empty line does the last command again."""

    prompt = "(b) "

    def __init__(self, program: Program, run: Run):
        super().__init__()
        self.program, self.run, self.at, self.last_line = program, run, 0, 0
        self.debugger = Debugger(program, run, self.note)
        self.is_interrupted = self.has_begun = False
        self.is_at_begin = True  # of a line, as far as the program has written
        self.pending: Optional[Motion] = None  # what wants input
        run.is_paused = lambda: self.is_interrupted

    # Typing and telling.

    def say(self, text):
        begin = "" if self.is_at_begin else "\n"
        self.is_at_begin = True
        self.stdout.write(begin + text)
        self.stdout.flush()

    def note(self, text):
        """Says what the debugger tells, after what the program has written before."""
        self.hand_on_output()
        self.say(text)

    def precmd(self, line):
        self.is_at_begin = True  # since the line that was typed has ended
        name, _, rest = line.strip().partition(" ")
        name, slash, form = name.partition("/")
        name = SHORT.get(name, name.replace("-", "_"))
        return f"{name} {slash}{form} {rest}".rstrip() if slash else f"{name} {rest}".rstrip()

    def onecmd(self, line):
        try:
            return super().onecmd(line)
        except (Fault, Refused) as fault:
            self.say(f"{fault}\n")
        except ValueError:
            self.say("a number is wrong here\n")
        return False

    def default(self, line):
        self.say(f"there is no command {line.split()[0].replace('_', '-')}; help lists them\n")

    def do_help(self, rest):
        """help [COMMAND]: the commands, or what one does."""
        if rest:
            return super().do_help(SHORT.get(rest, rest.replace("-", "_")))
        for name in sorted(it[3:] for it in dir(self) if it.startswith("do_")):
            self.say((getattr(self, f"do_{name}").__doc__ or "").split("\n")[0] + "\n")
        return False

    def hand_on_output(self):
        text = self.run.take_output()
        if text:
            self.stdout.flush()
            getattr(self.stdout, "buffer", self.stdout).write(text)
            self.is_at_begin = text.endswith(b"\n")
            self.stdout.flush()

    # Where it stands.

    def tell_place(self):
        frame = self.debugger.frame(self.at)
        file, line = self.program.file_of(frame.line)
        if file is None:
            return
        self.say(f"{self.told_call(self.at, frame)}\n{line}\t{file.lines[line - 1]}\n")
        self.last_line = 0

    def told_call(self, at, frame):
        function, word = self.debugger.function_of(frame), self.run.word
        given = [f"{it.name}={self.debugger.shown(word(frame.start + it.offset))}"
                 for it in function.locals[:function.parameters]]
        file, line = self.program.file_of(frame.line)
        where = f"{file.path.rpartition('/')[2]}:{line}" if file else "?"
        return f"#{at} {frame.name}({', '.join(given)}) at {where}"

    def come_to(self, halt: Halt):
        self.hand_on_output()
        self.at = 0
        if halt.reason == "input":
            self.pending = self.debugger.again()
            self.say("the program wants input: type  input TEXT\n")
            return
        self.pending = None
        numbers = ", ".join(map(str, halt.hits))
        told = [f"breakpoint {numbers}" if numbers else "", halt.text, "paused" if halt.reason == "pause" else ""]
        text = ": ".join(it for it in told if it)
        self.say(f"{text}\n" if text else "")
        if halt.reason != "halted":
            self.tell_place()

    def go(self, motion: Motion):
        """Goes on until the run stands, or somebody types control-C."""
        self.is_interrupted, before = False, signal.signal(signal.SIGINT, self.interrupt)
        try:
            while not self.is_interrupted:
                try:
                    next(motion)
                except StopIteration as end:
                    return self.come_to(end.value)
                self.hand_on_output()
            return self.come_to(Halt("pause"))
        finally:
            signal.signal(signal.SIGINT, before)

    def interrupt(self, *_):
        self.is_interrupted = True

    def go_back(self, search):
        self.begun()
        self.is_interrupted, before = False, signal.signal(signal.SIGINT, self.interrupt)
        try:
            self.come_to(self.debugger.back(search))
        finally:
            signal.signal(signal.SIGINT, before)

    def begun(self):
        if not self.has_begun:
            raise Refused("the program isn't run yet: type  run")

    def stands(self):
        self.begun()
        if self.run.end is not None:
            raise Refused("the program is over: go back, or type  run")

    def times(self, rest, motion):
        """Makes a motion as often as a number says, or until something else stops it."""
        self.stands()
        for _ in range(int(rest or 1)):
            self.go(motion())
            if self.run.end is not None or self.pending is not None or self.is_interrupted:
                return

    def restart(self):
        self.run.restart()
        self.has_begun, self.pending = True, None
        for it in self.debugger.breakpoints:
            it.count = 0

    # Going.

    def do_run(self, rest):
        """run, r: begins the program anew, up to a breakpoint"""
        self.restart()
        halt = self.debugger.hit()
        return self.come_to(halt) if halt else self.go(self.debugger.going())

    def do_start(self, rest):
        """start: begins the program anew, and stays at its first step"""
        self.restart()
        self.come_to(self.debugger.entry())

    def do_continue(self, rest):
        """continue, c: goes on to a breakpoint, or to the end"""
        self.stands()
        self.go(self.debugger.going())

    def do_next(self, rest):
        """next, n [N]: to the next line of this function"""
        self.times(rest, self.debugger.over)

    def do_step(self, rest):
        """step, s [N]: to the next line, also of a function that is called"""
        self.times(rest, self.debugger.into)

    def do_nexti(self, rest):
        """nexti, ni [N]: to the next instruction of this function"""
        self.times(rest, lambda: self.debugger.over(True))

    def do_stepi(self, rest):
        """stepi, si [N]: makes one step of the machine"""
        self.times(rest, self.debugger.stepping)

    def do_finish(self, rest):
        """finish, fin: to the end of this function"""
        self.stands()
        self.go(self.debugger.out(self.at))

    def do_reverse_continue(self, rest):
        """reverse-continue, rc: back to the last breakpoint, or to the first step"""
        self.go_back(self.debugger.back_on)

    def do_reverse_next(self, rest):
        """reverse-next, rn: back to the line before this one, in this function"""
        self.go_back(self.debugger.back_over)

    def do_reverse_step(self, rest):
        """reverse-step, rs: back to the line before this one, also of a function that was called"""
        self.go_back(self.debugger.back_into)

    def do_reverse_stepi(self, rest):
        """reverse-stepi, rsi [N]: one step of the machine back"""
        for _ in range(int(rest or 1)):
            self.go_back(self.debugger.back_instruction)

    def do_reverse_finish(self, rest):
        """reverse-finish: back to the call of this function"""
        self.go_back(self.debugger.back_out)

    def do_goto(self, rest):
        """goto N: to the state after N steps of the machine"""
        self.has_begun = True
        steps = int(rest)
        self.go_back(lambda: self.run.travel(steps) or Halt("step"))

    def do_input(self, rest):
        """input TEXT, input < FILE, input: gives the program a line, or a file, or ends its input"""
        if rest:
            self.run.feed(read_file(rest[1:].strip()) if rest.startswith("<") else rest.encode() + b"\n")
        else:
            self.run.close_input()
        if self.pending is not None:
            self.go(self.pending)

    # Breakpoints.

    def do_break(self, rest):
        """break, b WHERE [if EXPRESSION]: stops at a line, as 12 or x.b:12, or at a function"""
        where, _, condition = rest.partition(" if ")
        where = where.strip()
        function = self.program.by_name.get(where)
        if function is not None:
            places, told = [(function.address, 0)], where
        else:
            name, _, number = where.rpartition(":")
            file = self.program.file_named(name) if name else self.file_here()
            if not number.isdigit():
                raise Refused(f"there is no function {where}")
            line, places = self.program.places_at(file, int(number)) if file else (0, [])
            if not places:
                raise Refused("no code is there")
            told = f"{file.path.rpartition('/')[2]}:{line}"
        self.add(Breakpoint(self.debugger.next_number(), places, told=told, condition=condition))

    def do_watch(self, rest):
        """watch EXPRESSION: stops after each step that changes its word"""
        address = self.debugger.value(rest, self.at if self.has_begun else None).address
        if address is None:
            raise Refused(f"{rest} has no address")
        self.add(Breakpoint(self.debugger.next_number(), address=address, told=rest))

    def add(self, breakpoint):
        self.debugger.breakpoints.append(breakpoint)
        self.say(f"breakpoint {breakpoint.number} at {breakpoint.told}\n")

    def do_delete(self, rest):
        """delete, d [N]: takes a breakpoint away, or all"""
        numbers = {int(it) for it in rest.split()} or {it.number for it in self.debugger.breakpoints}
        self.debugger.breakpoints = [it for it in self.debugger.breakpoints if it.number not in numbers]

    # Looking.

    def file_here(self):
        if not self.has_begun:
            return self.program.files[0]
        return self.program.file_of(self.debugger.frame(self.at).line)[0] or self.program.files[0]

    def do_print(self, rest):
        """print, p[/x] EXPRESSION: its value; of a vector, all of its words"""
        is_hex = rest.startswith("/x ")
        rest = rest[3:] if is_hex else rest
        at = self.at if self.has_begun else None
        value = self.debugger.value(rest, at)
        shown = self.debugger.shown(value.word, is_hex)
        with contextlib.suppress(Fault):
            address, count = self.debugger.named(rest.strip(), self.debugger.frame(at) if at is not None else None)
            words = [self.run.word(self.run.word(address) + it) for it in range(min(count, MOST_SHOWN))]
            shown += " [" + ", ".join(self.debugger.shown(it, is_hex) for it in words) + "]" if words else ""
        self.say(f"{rest} = {shown}\n")

    def do_set(self, rest):
        """set EXPRESSION: evaluates what stores a word, as set n = 5"""
        self.begun()
        self.debugger.value(rest[4:] if rest.startswith("var ") else rest, self.at, may_store=True)

    def do_backtrace(self, rest):
        """backtrace, bt: the active calls"""
        self.begun()
        frames = self.run.frames()
        for at, frame in enumerate(frames[:MOST_SHOWN]):
            self.say(self.told_call(at, frame) + "\n")
        if len(frames) > MOST_SHOWN:
            self.say(f".. and {len(frames) - MOST_SHOWN} more\n")

    def do_frame(self, rest):
        """frame, f [N]: looks at one of these calls"""
        self.begun()
        at = int(rest or self.at)
        self.debugger.frame(at)
        self.at = at
        self.tell_place()

    def do_up(self, rest):
        """up: looks at the caller"""
        self.do_frame(str(self.at + 1))

    def do_down(self, rest):
        """down: looks at the call that it made"""
        self.do_frame(str(self.at - 1))

    def do_info(self, rest):
        """info locals, info externals, info breakpoints, info steps"""
        if rest in ("breakpoints", "b", "watch"):
            for it in self.debugger.breakpoints:
                self.say(f"{it.number} {it.told}{' if ' + it.condition if it.condition else ''}, {it.count} hits\n")
        elif rest == "locals":
            self.begun()
            self.show(names_of(self.debugger, self.debugger.frame(self.at)))
        elif rest == "externals":
            self.show(externals_of(self.debugger))
        elif rest == "steps":
            self.say(f"{self.run.steps}\n")
        else:
            self.say("info locals, info externals, info breakpoints, or info steps\n")

    def show(self, rows):
        for name, address, count in rows:
            words = [self.run.word(self.run.word(address) + it) for it in range(min(count, MOST_SHOWN))]
            more = " [" + ", ".join(map(self.debugger.shown, words)) + "]" if count else ""
            self.say(f"{name} = {self.debugger.shown(self.run.word(address))}{more}\n")

    def do_list(self, rest):
        """list, l [LINE]: ten lines of the source"""
        file = self.file_here()
        if rest:
            first = max(1, int(rest) - 5)
        elif self.last_line:
            first = self.last_line + 1
        else:
            here = self.program.file_of(self.debugger.frame(self.at).line)[1] if self.has_begun else 1
            first = max(1, here - 5)
        for number in range(first, min(first + 10, len(file.lines) + 1)):
            self.say(f"{number}\t{file.lines[number - 1]}\n")
        self.last_line = first + 9

    def do_quit(self, rest):
        """quit, q: ends"""
        return True


def talk(given) -> int:
    """Debugs one source by commands, up to `quit`, and answers the status of the command line."""
    try:
        program = Program(given.console, given.libs, given.edition)
        program.compile()
        run = Run(program, by_steps=given.by_steps)
    except Refused as fault:
        print(f"b_dap.py: {fault}", file=sys.stderr)
        return 133
    except library().Error as error:
        print(f"{program.told_faults(error)}{error}", file=sys.stderr)
        return error.status
    console = Console(program, run)
    while True:
        try:
            console.cmdloop()
            return 0
        except KeyboardInterrupt:  # while a command is typed
            console.say("\n")
