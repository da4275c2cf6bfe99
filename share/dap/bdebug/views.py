"""The requests that look at a run where it stands: its calls, its variables, its code and its memory."""
import base64
from typing import Callable, List, NamedTuple, Optional

from .arguments import argument, optional
from .debugger import externals_of, names_of
from .evaluate import Fault
from .program import Refused, read_file
from .words import WORD

THREAD = 1
CODE = 1 << 32  # added to the place of an instruction, to tell it from a word of memory
PAGE = 1000  # variables, where no number is asked for
MOST_FRAMES = 5000  # the machine has at most 4096
MOST_INSTRUCTIONS = 20_000  # in one answer
HELP = """:input TEXT      gives the program TEXT and a newline as input
:input < FILE    gives it the bytes of FILE
:input           closes its input
:reverse-step    goes back to the line before, also of a function that was called
:reverse-finish  goes back to the call of this function
All else is an expression of B, which may store: x = 5, v[2] =+ 1, p++
"""
BACK = {"reverse-step": "back_into", "reverse-finish": "back_out"}


class Words(NamedTuple):
    """What a reference to variables stands for: words by name, or those of a vector."""

    rows: Callable[[], List]  # name, address, words of its vector
    count: int
    owner: str  # the expression of the vector, or nothing


class ViewRequests:
    """The part of the server that looks at calls, variables, code and memory."""

    def source(self, file):
        return {"name": file.path.rpartition("/")[2], "path": file.path} if file else {"name": "?"}

    def on_threads(self, arguments):
        return {"threads": [{"id": THREAD, "name": "main"}]}

    def on_stackTrace(self, arguments):
        debugger = self.stand()
        frames, first = debugger.run.frames(), max(0, optional(arguments, "startFrame", int, 0))
        levels = optional(arguments, "levels", int, 0) or len(frames)
        rows = [self.told_frame(at, frames[at]) for at in range(first, min(len(frames), first + levels))]
        return {"stackFrames": rows, "totalFrames": len(frames)}

    def told_frame(self, at, frame):
        file, line = self.debugger.program.file_of(frame.line)
        return {"id": self.stop_number * MOST_FRAMES + at + 1, "name": frame.name, "source": self.source(file),
                "line": line + self.first_line - 1, "column": self.first_line,
                "instructionPointerReference": hex(CODE + (frame.function << 16) + frame.place)}

    def frame_number(self, arguments, may_lack=True) -> Optional[int]:
        """The number of a call by its `frameId`; without one there is none, and only externals have names."""
        number = arguments.get("frameId")
        if number is None and may_lack:
            return None
        number = argument(arguments, "frameId", int) - self.stop_number * MOST_FRAMES - 1
        if not 0 <= number < MOST_FRAMES:
            raise Refused("there is no such call any more")
        return number

    def on_scopes(self, arguments):
        debugger = self.stand()
        frame = debugger.frame(self.frame_number(arguments, may_lack=False))
        names, externals = names_of(debugger, frame), externals_of(debugger)
        local = Words(lambda: names, len(names), "")
        outer = Words(lambda: externals, len(externals), "")
        rows = (("Locals", "locals", local), ("Externals", "globals", outer))
        return {"scopes": [{"name": name, "presentationHint": hint, "expensive": False, "namedVariables": words.count,
                            "variablesReference": self.refer(words)} for name, hint, words in rows]}

    def refer(self, words: Words) -> int:
        self.reference += 1
        self.references[self.reference] = words
        return self.reference

    def referred(self, number) -> Words:
        self.stand()
        if number not in self.references:
            raise Refused("there are no such variables any more")
        return self.references[number]

    def vector(self, owner, address, count) -> int:
        """The reference to the words of a vector, which lie after its own word or where that leads."""
        first = self.debugger.run.word(address)

        def rows():
            return [(f"[{at}]", first + at & WORD, 0) for at in range(count)]

        return self.refer(Words(rows, count, owner))

    def on_variables(self, arguments):
        words = self.referred(argument(arguments, "variablesReference", int))
        first = max(0, optional(arguments, "start", int, 0))
        count = optional(arguments, "count", int, 0) or PAGE
        wanted = arguments.get("filter") in (None, "indexed" if words.owner else "named")
        is_hex = bool((arguments.get("format") or {}).get("hex"))
        rows = words.rows()[first:first + count] if wanted else []
        return {"variables": [self.told_variable(words.owner, *it, is_hex) for it in rows]}

    def told_variable(self, owner, name, address, count, is_hex):
        debugger = self.debugger
        inner = {"variablesReference": self.vector(name, address, count), "indexedVariables": count} if count else \
            {"variablesReference": 0}
        return {"name": name, "value": debugger.shown(debugger.run.word(address), is_hex), "evaluateName": owner + name,
                "type": "vector" if count else "word", "memoryReference": hex(2 * address), **inner}

    def variable(self, number, name):
        found = next((it for it in self.referred(number).rows() if it[0] == name), None)
        if found is None:
            raise Refused(f"there is no variable {name}")
        return found

    def on_setVariable(self, arguments):
        address = self.variable(argument(arguments, "variablesReference", int), argument(arguments, "name", str))[1]
        return self.store(address, argument(arguments, "value", str), 0)

    def on_setExpression(self, arguments):
        debugger, at = self.stand(), self.frame_number(arguments)
        address = debugger.value(argument(arguments, "expression", str), at).address
        if address is None:
            raise Refused("this expression has no address")
        return self.store(address, argument(arguments, "value", str), at)

    def store(self, address, text, at):
        debugger = self.debugger
        debugger.run.store(address, debugger.value(text, at).word)
        return {"value": debugger.shown(debugger.run.word(address))}

    def on_evaluate(self, arguments):
        text = argument(arguments, "expression", str)
        is_console = arguments.get("context") == "repl"
        if is_console and text.startswith(":"):
            return self.command(*text[1:].partition(" ")[::2])
        debugger, at = self.stand(), self.frame_number(arguments)
        value = debugger.value(text, at, may_store=is_console)
        is_hex = bool((arguments.get("format") or {}).get("hex"))
        body = {"result": debugger.shown(value.word, is_hex), "type": "word", "variablesReference": 0}
        if value.address is not None:
            body["memoryReference"] = hex(2 * value.address)
            count = self.words_at(text.strip(), at)
            if count:
                body.update(type="vector", indexedVariables=count,
                            variablesReference=self.vector(text.strip(), value.address, count))
        return body

    def words_at(self, name, at):
        """The words of the vector of a name; 0 of anything else."""
        try:
            return self.debugger.named(name, self.debugger.frame(at) if at is not None else None)[1]
        except Fault:
            return 0

    def command(self, name, rest):
        """A command of the console, which begins with a colon there, since a name may be that of a word, too."""
        if name in BACK:
            self.go_back(getattr(self.stand(), BACK[name]))
        elif name == "input":
            self.give_input(rest)
        return {"result": "" if name in BACK or name == "input" else HELP, "variablesReference": 0}

    def give_input(self, text):
        """Gives the program a line or a file, or closes its input, and lets it go on where it has waited for that."""
        run = self.loaded().run
        if not text.strip():
            run.close_input()
        else:
            run.feed(read_file(text[1:].strip()) if text.startswith("<") else text.encode() + b"\n")
        if self.is_waiting:
            self.after.append(lambda: self.go(self.debugger.again()))

    def on_completions(self, arguments):
        debugger, text = self.stand(), argument(arguments, "text", str)
        before = text[:max(0, argument(arguments, "column", int) - self.first_line)]
        begun = before[len(before.rstrip("abcdefghijklmnopqrstuvwxyzABCDEFGHIJKLMNOPQRSTUVWXYZ0123456789_")):]
        names = [it[0] for it in names_of(debugger, debugger.frame(0))] + list(debugger.program.externals)
        return {"targets": [{"label": it} for it in dict.fromkeys(names) if it.startswith(begun)]}

    def on_exceptionInfo(self, arguments):
        self.stand()
        return {"exceptionId": self.halt.reason, "description": self.halt.text, "breakMode": "always"}

    # Code and memory.

    def instruction(self, reference, offset=0):
        """The function and the place of an instruction that a reference names, or None."""
        number = self.number(reference) - CODE + offset
        function = self.loaded().program.functions.get(number >> 16)
        is_there = function is not None and number & WORD < len(function.code)
        return (function.address, number & WORD) if is_there else None

    @staticmethod
    def number(reference):
        try:
            return int(reference, 0)
        except ValueError:
            raise Refused(f"{reference!r} is no reference") from None

    def on_disassemble(self, arguments):
        program = self.loaded().program
        rows = [(function, it) for function in program.functions.values() for it in function.code]
        place = self.instruction(argument(arguments, "memoryReference", str), optional(arguments, "offset", int, 0))
        keys = [(function.address, it.place) for function, it in rows]
        first = (keys.index(place) if place else len(rows)) + optional(arguments, "instructionOffset", int, 0)
        count = min(max(0, argument(arguments, "instructionCount", int)), MOST_INSTRUCTIONS)
        return {"instructions": [self.told_instruction(rows, at) for at in range(first, first + count)]}

    def told_instruction(self, rows, at):
        if not 0 <= at < len(rows):
            address = hex(CODE + (at if at < 0 else (1 << 31) + at))
            return {"address": address, "instruction": "", "presentationHint": "invalid"}
        function, it = rows[at]
        file, line = self.debugger.program.file_of(it.line)
        told = {"address": hex(CODE + (function.address << 16) + it.place), "instruction": it.text,
                "location": self.source(file), "line": line + self.first_line - 1}
        return {**told, "symbol": function.name} if it.place == 0 else told

    def on_readMemory(self, arguments):
        run = self.stand().run
        first = self.number(argument(arguments, "memoryReference", str)) + optional(arguments, "offset", int, 0)
        count = max(0, argument(arguments, "count", int))
        last = min(first + count, 2 * WORD + 2)
        first = max(first, 0)
        data = bytes(run.word(at >> 1) >> 8 * (at & 1) & 0xFF for at in range(first, last))
        return {"address": hex(first), "data": base64.b64encode(data).decode(), "unreadableBytes": count - len(data)}

    def on_loadedSources(self, arguments):
        return {"sources": [self.source(it) for it in self.loaded().program.files]}

    def on_source(self, arguments):
        path = argument(argument(arguments, "source", dict), "path", str)
        file = self.loaded().program.file_named(self.path_of(path))
        if file is None:
            raise Refused("this file is none of the program")
        return {"content": "\n".join(file.lines)}
