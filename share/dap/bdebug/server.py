"""The server of the Debug Adapter Protocol: requests in, responses and events out."""
import codecs
import urllib.parse
from typing import Callable, Dict, List, Optional

from .arguments import argument, optional
from .debugger import FILTERS, Breakpoint, Debugger, Halt
from .evaluate import Fault
from .points import PointRequests
from .program import Program, Refused, read_file
from .protocol import Broken, Inbox, Outbox
from .run import Run
from .views import THREAD, ViewRequests, Words
from .words import library

CAPABILITIES = (
    "supportsConfigurationDoneRequest", "supportsFunctionBreakpoints", "supportsConditionalBreakpoints",
    "supportsHitConditionalBreakpoints", "supportsEvaluateForHovers", "supportsStepBack", "supportsSetVariable",
    "supportsSetExpression", "supportsRestartRequest", "supportsLogPoints", "supportsTerminateRequest",
    "supportsDataBreakpoints", "supportsReadMemoryRequest", "supportsDisassembleRequest",
    "supportsSteppingGranularity", "supportsInstructionBreakpoints", "supportsCancelRequest",
    "supportsValueFormattingOptions", "supportsExceptionInfoRequest", "supportsDelayedStackTraceLoading",
    "supportsBreakpointLocationsRequest", "supportsLoadedSourcesRequest", "supportsCompletionsRequest",
    "supportTerminateDebuggee",
)
REASONS = {"watch": "data breakpoint", "limit": "exception", "halted": "exception", "trapped": "exception",
           "input": "exception"}
FILTER_OF = {"limit": "limit", "halted": "halt", "trapped": "trap", "input": "input"}
STATUS_OF = {"trapped": 130, "limit": 131}


class Server(PointRequests, ViewRequests):
    """One session of debugging over two streams. `by_steps` is for trials of the slower way."""

    def __init__(self, inbox: Inbox, outbox: Outbox, by_steps: bool = False):
        self.inbox, self.outbox, self.by_steps = inbox, outbox, by_steps
        self.debugger: Optional[Debugger] = None
        self.motion = self.halt = None
        self.launched: dict = {}
        self.points: Dict[str, List[Breakpoint]] = {}
        self.filters = {"trap", "limit"}
        self.is_over = self.is_waiting = self.is_configured = False
        self.first_line, self.are_uris = 1, False
        self.references: Dict[int, Words] = {}
        self.reference = self.stop_number = 0
        self.after: List[Callable[[], None]] = []
        self.handlers = {name[3:]: getattr(self, name) for name in dir(self) if name.startswith("on_")}

    # The loop.

    def serve(self) -> None:
        """Answers what comes, up to the end of the stream or to `disconnect`."""
        while not self.is_over:
            message = self.inbox.take(waits=self.motion is None)
            if message is not None:
                self.answer(message)
            elif self.inbox.is_over:
                return
            elif self.motion is not None:
                self.advance()

    def answer(self, message) -> None:
        """Answers a message, with an error where something is wrong with it."""
        if isinstance(message, Broken):
            self.respond({}, False, message=str(message))
        elif message.get("type") == "request":
            self.answer_request(message)

    def answer_request(self, message):
        handler = self.handlers.get(message["command"]) if isinstance(message.get("command"), str) else None
        arguments = message.get("arguments")
        try:
            if message.get("cancelled"):
                raise Refused("cancelled")
            if handler is None:
                raise Refused("there is no such request")
            if arguments is not None and not isinstance(arguments, dict):
                raise Refused("the arguments are no object")
            body = handler(arguments or {})
            self.respond(message, True, **({} if body is None else {"body": body}))
        except (Refused, Fault) as error:
            self.respond(message, False, message=str(error), body=self.error(error))
        except (OSError, ArithmeticError, LookupError, TypeError, ValueError, AttributeError, library().Error) as error:
            text = f"this request can't be answered: {type(error).__name__}: {error}"
            self.respond(message, False, message=text, body=self.error(text))
        after, self.after = self.after, []
        for it in after:
            it()

    @staticmethod
    def error(text):
        shown = str(text).replace("{", "(").replace("}", ")")
        return {"error": {"id": 1, "format": shown, "showUser": False}}

    def respond(self, request, success, **members):
        number, command = request.get("seq"), request.get("command")
        number = number if isinstance(number, int) else 0
        self.outbox.put("response", request_seq=number, success=success,
                        command=command if isinstance(command, str) else "", **members)

    def tell(self, text, category="console"):
        self.outbox.event("output", category=category, output=text)

    def note(self, text):
        """Tells what the debugger says, after what the program has written before."""
        self.hand_on_output()
        self.tell(text)

    # Going and standing.

    def stand(self) -> Debugger:
        """The debugger, while the run stands."""
        debugger = self.loaded()
        if self.motion is not None or self.is_waiting or self.halt is None:
            raise Refused("the program doesn't stand")
        return debugger

    def loaded(self) -> Debugger:
        if self.debugger is None:
            raise Refused("there is no program")
        return self.debugger

    def go(self, motion) -> None:
        """Sets the run going, once the response is out."""
        self.motion, self.halt, self.is_waiting = motion, None, False
        self.references.clear()

    def go_back(self, search) -> None:
        debugger = self.stand()
        self.halt = None
        self.references.clear()
        self.after.append(lambda: self.come_to(debugger.back(search)))

    def advance(self) -> None:
        """One slice of what goes."""
        try:
            next(self.motion)
        except StopIteration as end:
            self.motion = None
            self.hand_on_output()
            self.come_to(end.value)
        else:
            self.hand_on_output()

    def hand_on_output(self):
        text = self.characters.decode(self.debugger.run.take_output(), self.debugger.run.end is not None)
        if text:
            self.tell(text, "stdout")

    def come_to(self, halt: Halt) -> None:
        """Tells where the run has come to, as the user has asked for."""
        name = FILTER_OF.get(halt.reason)
        if halt.reason == "input" and "input" not in self.filters:
            self.is_waiting = True
            self.tell("The program wants input. Type `:input TEXT` here, or `:input` to close it.\n")
        elif name is None or name in self.filters and not self.launched.get("noDebug"):
            self.stop(halt)
        else:
            self.finish(halt)

    def stop(self, halt: Halt):
        self.halt, self.is_waiting = halt, False
        self.stop_number += 1
        told = {"text": halt.text} if halt.text else {}
        self.outbox.event("stopped", reason=REASONS.get(halt.reason, halt.reason), threadId=THREAD,
                          allThreadsStopped=True, hitBreakpointIds=list(halt.hits), **told)

    def finish(self, halt: Halt):
        """Ends the session, and tells the status of the program."""
        end = self.debugger.run.end
        status = STATUS_OF.get(halt.reason, end.status if end is not None else 0)
        self.tell(halt.text + "\n")
        self.outbox.event("exited", exitCode=status)
        self.terminate()

    def terminate(self):
        self.motion = self.halt = self.debugger = None
        self.is_waiting = self.is_configured = False
        self.outbox.event("terminated")

    # The begin and the end.

    def on_initialize(self, arguments):
        self.first_line = 1 if arguments.get("linesStartAt1", True) else 0
        self.are_uris = arguments.get("pathFormat") == "uri"
        filters = [{"filter": name, "label": label, "default": name in self.filters} for name, label in FILTERS.items()]
        return {**{name: True for name in CAPABILITIES}, "exceptionBreakpointFilters": filters}

    def on_launch(self, arguments):
        if self.debugger is not None:
            raise Refused("a program is there already")
        self.launched, self.points = arguments, {}
        self.load()
        self.after.append(lambda: self.outbox.event("initialized"))

    def load(self):
        """Compiles what `launch` names. What is wrong in it is told in the console, and the session is over."""
        given = self.launched
        libs = optional(given, "libs", list, None)
        edition = optional(given, "edition", int, None)
        if edition not in (None, 1, 2) or not all(isinstance(it, str) for it in libs or []):
            raise Refused("edition has to be 1 or 2, and libs a list of names")
        most = optional(given, "steps", int, None)
        if most is not None and most < 1:
            raise Refused("steps has to be 1 or more")
        program = Program(self.path_of(argument(given, "program", str)), libs, edition)
        try:
            program.compile()
            text, is_whole = self.given_input()
            run = Run(program, text, is_whole, self.by_steps)
        except library().Error as error:
            self.tell(program.told_faults(error), "stderr")
            self.after.append(self.terminate)
            raise Refused(f"{program.path.name} can't be run: {error}") from None
        run.most = most
        run.is_paused = self.inbox.has_urgent
        self.debugger = Debugger(program, run, self.note)
        self.characters = codecs.getincrementaldecoder("utf-8")("replace")  # one may come in two parts

    def given_input(self):
        """The input that `launch` has, and whether that is all."""
        if self.launched.get("inputText") is not None:
            return argument(self.launched, "inputText", str).encode(), True
        if self.launched.get("input") is not None:
            return read_file(self.path_of(argument(self.launched, "input", str))), True
        return b"", False

    def on_configurationDone(self, arguments):
        self.loaded()
        if self.is_configured:
            raise Refused("the configuration is done already")
        self.is_configured = True
        self.after.append(self.begin)

    def begin(self):
        """Stops at the first step, or goes on from there."""
        debugger = self.debugger
        if self.launched.get("noDebug"):
            debugger.breakpoints = []
        halt = debugger.hit() if not self.launched.get("stopOnEntry") else debugger.entry()
        if halt is not None:
            self.stop(halt)
        else:
            self.go(debugger.going())

    def on_restart(self, arguments):
        self.loaded()
        if isinstance(arguments.get("arguments"), dict):
            self.launched = arguments["arguments"]
        before = self.debugger
        self.motion = self.halt = None
        self.load()
        self.debugger.breakpoints, self.debugger.number = before.breakpoints, before.number
        for it in before.breakpoints:
            it.count = 0
        self.is_configured = True
        self.after.append(self.begin)

    def on_terminate(self, arguments):
        self.loaded()
        self.after.append(self.terminate)

    def on_disconnect(self, arguments):
        self.is_over = True

    def on_cancel(self, arguments):
        """Nothing is left to do: what waits was marked, and what goes is paused."""

    # Going.

    def granularity(self, arguments):
        return arguments.get("granularity") == "instruction"

    def on_continue(self, arguments):
        debugger, halt = self.stand(), self.halt
        if halt.is_over and debugger.run.end is not None:
            self.after.append(lambda: self.finish(halt))
        else:
            if halt.reason == "limit":
                debugger.run.most += self.launched["steps"]
            self.go(debugger.going())
        return {"allThreadsContinued": True}

    def step(self, motion):
        """Steps, or ends the session where the run is over."""
        halt = self.stand().run.end and self.halt
        if halt:
            self.after.append(lambda: self.finish(halt))
        else:
            self.go(motion)

    def on_next(self, arguments):
        self.step(self.stand().over(self.granularity(arguments)))

    def on_stepIn(self, arguments):
        self.step(self.stand().into(self.granularity(arguments)))

    def on_stepOut(self, arguments):
        self.step(self.stand().out())

    def on_stepBack(self, arguments):
        debugger = self.stand()
        self.go_back(debugger.back_instruction if self.granularity(arguments) else debugger.back_over)

    def on_reverseContinue(self, arguments):
        self.go_back(self.stand().back_on)

    def on_pause(self, arguments):
        self.loaded()
        if self.motion is not None or self.is_waiting:
            self.motion = None
            self.after.append(lambda: self.stop(Halt("pause")))
