"""The requests that set breakpoints."""
from .arguments import argument, optional
from .debugger import FILTERS, Breakpoint, are_hits
from .words import WORD


class PointRequests:
    """The part of the server that sets breakpoints of lines, functions, instructions and words, and of exceptions."""

    def path_of(self, text):
        return urllib.parse.unquote(urllib.parse.urlparse(text).path) if self.are_uris else text

    def set_points(self, key, points):
        """Puts these breakpoints in the place of those with the same key; one that was there keeps its count."""
        for at, it in enumerate(points):
            told = {**vars(it), "number": 0}
            same = (old for old in self.points.get(key, []) if {**vars(old), "number": 0, "count": 0} == told)
            points[at] = next(same, it)
        self.points[key] = points
        self.debugger.breakpoints = [it for rows in self.points.values() for it in rows]

    def point(self, asked, places, **more):
        """A breakpoint as it is asked for."""
        texts = {"condition": "condition", "hits": "hitCondition", "log": "logMessage"}
        given = {name: optional(asked, its, str, "") for name, its in texts.items()}
        places = places if are_hits(given["hits"]) else []
        return Breakpoint(self.debugger.next_number(), places, **given, **more)

    def told(self, point, why=""):
        """What is told of a breakpoint; it is verified unless there is a reason why not."""
        why = why or ("" if are_hits(point.hits) else f"{point.hits} is no count of hits")
        return {"id": point.number, "verified": not why, **({"message": why} if why else {})}

    def on_setBreakpoints(self, arguments):
        debugger = self.loaded()
        path = self.path_of(argument(argument(arguments, "source", dict), "path", str))
        file = debugger.program.file_named(path)
        asked = arguments.get("breakpoints")
        asked = [{"line": it} for it in arguments.get("lines") or []] if asked is None else asked
        points, rows = [], []
        for it in asked:
            wanted = argument(it, "line", int) - self.first_line + 1
            line, places = debugger.program.places_at(file, wanted) if file else (0, [])
            points.append(self.point(it, places, line=line))
            why = "no code comes after this line" if file else "this file is none of the program"
            rows.append((line or wanted, "" if line else why))
        self.set_points(f"lines of {file.path if file else path}", points)
        source = self.source(file) if file else arguments["source"]
        told = [{**self.told(point, why), "line": line + self.first_line - 1, "source": source}
                for point, (line, why) in zip(points, rows)]
        return {"breakpoints": told}

    def on_setFunctionBreakpoints(self, arguments):
        debugger, points, told = self.loaded(), [], []
        for it in argument(arguments, "breakpoints", list):
            name = argument(it, "name", str)
            function = debugger.program.by_name.get(name)
            points.append(self.point(it, [(function.address, 0)] if function else []))
            told.append(self.told(points[-1], "" if function else f"there is no function {name}"))
        self.set_points("functions", points)
        return {"breakpoints": told}

    def on_setInstructionBreakpoints(self, arguments):
        self.loaded()
        points, told = [], []
        for it in argument(arguments, "breakpoints", list):
            place = self.instruction(argument(it, "instructionReference", str), optional(it, "offset", int, 0))
            points.append(self.point(it, [place] if place else []))
            told.append(self.told(points[-1], "" if place else "no instruction is there"))
        self.set_points("instructions", points)
        return {"breakpoints": told}

    def on_dataBreakpointInfo(self, arguments):
        debugger, name = self.stand(), argument(arguments, "name", str)
        if arguments.get("variablesReference"):
            address = self.variable(argument(arguments, "variablesReference", int), name)[1]
        else:
            address = debugger.value(name, self.frame_number(arguments)).address
        if address is None:
            return {"dataId": None, "description": f"{name} has no address"}
        return {"dataId": f"{address} {name}", "description": f"{name} at {address}", "accessTypes": ["write"]}

    def on_setDataBreakpoints(self, arguments):
        self.loaded()
        points, told = [], []
        for it in argument(arguments, "breakpoints", list):
            address, _, name = argument(it, "dataId", str).partition(" ")
            is_right = address.isdigit() and len(address) < 6 and int(address) <= WORD
            points.append(self.point(it, [], address=int(address) if is_right else None, told=name))
            told.append(self.told(points[-1], "" if is_right else "there is no such word"))
        self.set_points("words", points)
        return {"breakpoints": told}

    def on_setExceptionBreakpoints(self, arguments):
        filters = argument(arguments, "filters", list)
        self.filters = {it for it in filters if it in FILTERS}
        return {"breakpoints": [{"verified": it in FILTERS} for it in filters]}

    def on_breakpointLocations(self, arguments):
        debugger = self.loaded()
        file = debugger.program.file_named(self.path_of(argument(argument(arguments, "source", dict), "path", str)))
        first = argument(arguments, "line", int)
        last = optional(arguments, "endLine", int, first)
        lines = debugger.program.lines_with_code(file) if file else []
        shift = self.first_line - 1
        return {"breakpoints": [{"line": it + shift} for it in lines if first <= it + shift <= last]}
