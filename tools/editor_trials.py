"""What tools/try-editors and tools/try-projects share: what was seen beside what was expected, a client of the language
server, the tasks of VS Code, and a folder with the program as it is installed."""
import contextlib
import json
import os
import pathlib
import shutil
import subprocess
import tempfile

TOP = pathlib.Path(__file__).resolve().parent.parent
FILE = "x y.b"


class Tried:
    """What was seen beside what was expected."""

    def __init__(self):
        self.wrong = 0

    def expect(self, what, wanted, seen):
        if wanted != seen:
            self.wrong += 1
            print(f"{what}\n  expected: {wanted!r}\n  seen:     {seen!r}")


class Session:
    """A client of the language server."""

    def __init__(self, folder, name=FILE, words=()):
        self.uri, self.number = (folder / name).as_uri(), 0
        command = [TOP / "share/lsp/b-lsp", *words]
        self.server = subprocess.Popen(command, stdin=subprocess.PIPE, stdout=subprocess.PIPE)

    def send(self, **message):
        body = json.dumps({"jsonrpc": "2.0", **message}).encode()
        self.server.stdin.write(b"Content-Length: %d\r\n\r\n" % len(body) + body)
        self.server.stdin.flush()

    def read(self):
        length = 0
        while (head := self.server.stdout.readline().strip()):
            length = int(head.split(b":")[1])
        return json.loads(self.server.stdout.read(length))

    def ask(self, method, **params):
        self.number += 1
        self.send(id=self.number, method=method, params=params)
        while (answer := self.read()).get("id") != self.number:
            pass
        return answer.get("result", answer.get("error", {}).get("code"))

    def at(self, name, line, column, **params):
        place = {"line": line, "character": column}
        return self.ask(f"textDocument/{name}", textDocument={"uri": self.uri}, position=place, **params)

    def findings_of(self, text, is_open):
        """The sentences of what is found."""
        return [it["message"] for it in self.published(text, is_open)]

    def findings(self, text, is_open):
        return [(place(it["range"]), it["severity"], it["code"], it["message"].split("\n")[0])
                for it in self.published(text, is_open)]

    def published(self, text, is_open):
        document = {"uri": self.uri, "languageId": "b", "version": 1, **({} if is_open else {"text": text})}
        change = {"contentChanges": [{"text": text}]} if is_open else {}
        method = f"textDocument/did{'Change' if is_open else 'Open'}"
        self.send(method=method, params={"textDocument": document, **change})
        return self.read()["params"]["diagnostics"]

    def on_all(self, name, **params):
        return self.ask(f"textDocument/{name}", textDocument={"uri": self.uri}, **params)

    def end(self):
        self.ask("shutdown")
        self.send(method="exit")
        return self.server.wait()


def place(span):
    return "{}:{}-{}:{}".format(*(span[end][part] for end in ("start", "end") for part in ("line", "character")))


def run_task(label, folder, name=FILE, before=""):
    """What a task of VS Code writes on a file, within a shell that has read what comes before."""
    tasks = json.loads((TOP / "share/vscode/tasks.json").read_text())["tasks"]
    task = next(it for it in tasks if it["label"] == label)
    put = lambda text: text.replace("${fileDirname}", str(folder)).replace("${fileBasename}", name)
    env = {**os.environ, **{key: put(value) for key, value in task["options"]["env"].items()}}
    flag, command = task["args"]
    done = subprocess.run([task["command"], flag, before + command], cwd=put(task["options"]["cwd"]), env=env,
                          text=True, stdout=subprocess.PIPE, stderr=subprocess.STDOUT, timeout=60)
    return done.stdout


@contextlib.contextmanager
def installed(program):
    """A folder with the program, the script b, which is then on the path, and a folder for sources."""
    with tempfile.TemporaryDirectory() as room:
        path = pathlib.Path(room)
        for name in ("bin", "libexec", "programs"):
            (path / name).mkdir()
        shutil.copy(TOP / "share/pack/b", path / "bin/b")
        shutil.copy(TOP / "share/pack/words.sh", path / "libexec/b-words.sh")
        shutil.copy(program, path / "libexec/b")
        (path / "lib").symlink_to(TOP / "lib")
        os.environ["PATH"] = f"{path / 'bin'}:{os.environ['PATH']}"
        yield path / "programs"
