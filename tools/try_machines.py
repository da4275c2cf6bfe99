"""Tries the programs that tools/machines has made, by what tries the native one: each case of crates/bcases/data is
answered as by the native program, and calls fail in turn. MORE_RUNS names a file of more runs with their answers, as
tools/try_web.mjs takes it."""
import json
import os
import pathlib
import shutil
import subprocess
import tempfile

TOP = pathlib.Path(__file__).resolve().parent.parent
DATA = TOP / "crates/bcases/data"
MORE_RUNS = os.environ.get("MORE_RUNS")
MOST_TOLD = 10
# What b.exe writes of a name after --with, as the script `b` does before it runs the native program.
OF_THE_WORDS = b"note: the library has "


def read(path, other=b""):
    return path.read_bytes() if path.is_file() else other


class Trial:
    """A program with the words that run it on this machine."""

    def __init__(self, name, runner, program, environment=None):
        self.name, self.words = name, [*runner, str(program)]
        self.environment = {**os.environ, **(environment or {})}
        self.wrong = 0

    def run(self, words, given, cwd):
        ran = subprocess.run([*self.words, *words], input=given, cwd=cwd, capture_output=True, env=self.environment)
        lines = [it for it in ran.stderr.splitlines(True) if not it.startswith(OF_THE_WORDS)]
        return ran.returncode, ran.stdout, b"".join(lines)

    def expect(self, is_right, told):
        if is_right:
            return
        self.wrong += 1
        if self.wrong <= MOST_TOLD:
            print(f"wrong: {self.name}: {told}", flush=True)

    def try_case(self, args, native):
        """Compares the answers to a case, and returns how many runs it is."""
        words = args.read_text().removesuffix("\n").split("\n")
        given = {"compile": ".b", "migrate": ".code"}.get(words[0], ".in")
        text = read(args.with_suffix(".in"), read(args.with_suffix(given)))
        editions = ["--edition=1", "--edition=2"] if "--edition=both" in words else ["--edition=both"]
        for edition in editions:
            now = [edition if it == "--edition=both" else it for it in words]
            got, wanted = self.run(now, text, args.parent), native.run(now, text, args.parent)
            self.expect(got == wanted, f"{args.relative_to(DATA)}: {now}: {shown(got)}; native: {shown(wanted)}")
        return len(editions)

    def try_run(self, of, room):
        """Compares the answer to a run with the one that stands beside it."""
        words = [of["command"], *of["args"]]
        if of["file"] is not None:
            (pathlib.Path(room) / "FILE").write_bytes(of["file"].encode("latin-1"))
            words.append("FILE")
        got = self.run(words, (of["stdin"] or "").encode("latin-1"), room)
        wanted = [of["status"], *(it if it is None else it.encode("latin-1") for it in (of["stdout"], of["stderr"]))]
        is_right = all(one == other or other is None and one for one, other in zip(got, wanted))
        self.expect(is_right, f"run {of['id']}: {shown(got)}")

    def try_all(self, native):
        """Whether all was answered right; it tells how much it was."""
        cases = sorted(DATA.rglob("*.args"))
        runs = sum(self.try_case(it, native) for it in cases)
        more = json.loads(pathlib.Path(MORE_RUNS).read_text()) if MORE_RUNS else []
        with tempfile.TemporaryDirectory() as room:
            for of in more:
                self.try_run(of, room)
        told = f"{len(cases)} cases in {runs} runs, and {len(more)} more; wrong answers: {self.wrong}"
        print(f"{self.name}: {told}", flush=True)
        return self.wrong == 0


def shown(answer):
    status, out, line = answer
    return f"{status}, {len(out)} and {len(line)} bytes: {line[:80]!r}"


def fails_in_turn(name, runner, program, kinds, environment=None):
    """Whether each call of these kinds that fails in turn ends a run as it has to."""
    words = [TOP / "tools/fail-in-turn", program, *(runner or ["env"])]
    surroundings = {**os.environ, **(environment or {}), "KINDS": kinds}
    ran = subprocess.run(words, env=surroundings, capture_output=True, text=True)
    told = [it for it in ran.stdout.splitlines() if not it.endswith(": 0") and ": 0, of" not in it]
    print(f"{name}: calls that fail in turn: {'; '.join(told) or 'no wrong answers'}", flush=True)
    if ran.returncode:
        print(ran.stderr[:2000], flush=True)
    return ran.returncode == 0


def found(*names):
    """The first of these commands that is here, or None."""
    return next((it for it in map(shutil.which, names) if it), None)
