"""What the page for browsers takes from the pages of this repository: the lessons of docs/TUTORIAL.md, the mistakes of
docs/CLASS.md, docs/CARD.md, docs/LIB.md, docs/LANGUAGE.md, docs/COMMANDS.md, and the exercises of class/ with their
tests. `course(top)` gives all of it as one object for JSON; `tools/make-page` puts that into the page.

  python3 tools/course.py DIR    writes the programs of the lessons and their inputs into DIR/lesson-1 and so on

A chapter is HTML, with the programs of its text by their names. A code block is one of these:

- a program or an input, where the sentence before it ends in "`NAME` be", or where all programs of the chapter have one
  name, as those of the mistakes have;
- commands, where it begins with "$ ./b": each with what it writes;
- or plain text."""
import html
import pathlib
import re
import shlex
import sys

COMMAND = "$ ./b "
NAMED = re.compile(r"`([\w.]+)` be$")
FENCE = "```"
SOURCES = (".b", ".code")
SHOWN = (".html", ".svg")  # files that a command of a lesson makes, and that the page shows in their place
OPTIONS = {"--edition": "edition", "--steps": "steps"}


def inline(text, link):
    """The HTML of a text with code, stress, links and pictures."""
    kept = []

    def keep(made):
        kept.append(made)
        return f"\0{len(kept) - 1}\0"

    text = re.sub(r"(`+)(.+?)\1", lambda it: keep(f"<code>{html.escape(it[2].strip())}</code>"), text)
    text = re.sub(r"<code>(.+?)</code>", lambda it: keep(f"<code>{html.escape(html.unescape(it[1]))}</code>"), text)
    text = re.sub(r"\\([\\*_`|\[\]])", lambda it: keep(html.escape(it[1])), text)
    text = html.escape(text)
    text = re.sub(r"!\[([^\]]*)\]\(([^)]*)\)", lambda it: keep(link.picture(it[1], it[2])), text)
    text = re.sub(r"\[([^\]]*)\]\(([^)]*)\)", lambda it: link(it[1], it[2]), text)
    text = re.sub(r"\*\*(.+?)\*\*", r"<strong>\1</strong>", text)
    text = re.sub(r"\*(.+?)\*", r"<em>\1</em>", text)
    while "\0" in text:
        text = re.sub("\0(\\d+)\0", lambda it: kept[int(it[1])], text)
    return text


class Link:
    """Links of a page: those to a chapter stay, of the others the words stay."""

    def __init__(self, chapters, pictures):
        self.chapters, self.pictures = chapters, pictures

    def __call__(self, words, target):
        chapter = self.chapters.get(target) or self.chapters.get(target.split("#")[0])
        return f'<a href="#{chapter}" data-chapter="{chapter}">{words}</a>' if chapter else words

    def picture(self, words, target):
        return f'<img src="{self.pictures[target]}" alt="{words}">' if target in self.pictures else ""


class Reader:
    """Reads the blocks of a page of Markdown: headings, paragraphs, lists, tables and code."""

    def __init__(self, link):
        self.link = link

    def blocks(self, text):
        """Pairs of a kind and what it has."""
        lines = text.split("\n")
        while lines:
            line = lines[0]
            if not line.strip():
                lines.pop(0)
            elif line.startswith(FENCE):
                lines.pop(0)
                yield "code", self.fenced(lines)
            elif line.startswith("    "):
                yield "code", self.indented(lines)
            elif line.startswith("#"):
                yield "heading", lines.pop(0)
            elif line.startswith("|"):
                yield "table", self.rows(lines)
            elif re.match(r"- |\d+\. ", line):
                yield "list", self.items(lines)
            else:
                yield "text", self.paragraph(lines)

    def fenced(self, lines):
        found = []
        while lines and not lines[0].startswith(FENCE):
            found.append(lines.pop(0))
        lines[:1] = []
        return "\n".join(found) + "\n"

    def indented(self, lines):
        found = []
        while lines and (lines[0].startswith("    ") or not lines[0].strip()):
            if found and not found[-1] and lines[0].startswith("    $ "):
                break
            found.append(lines.pop(0)[4:])
        return "\n".join(found).rstrip("\n") + "\n"

    def rows(self, lines):
        found = []
        while lines and lines[0].startswith("|"):
            row = lines.pop(0).strip().strip("|")
            found.append([it.strip() for it in re.split(r"(?<!\\)\|", row)])
        return found

    def items(self, lines):
        found, numbered = [], lines[0][0].isdigit()
        while lines and (re.match(r"- |\d+\. ", lines[0]) or lines[0].startswith("  ") and lines[0].strip()):
            line = lines.pop(0)
            if re.match(r"- |\d+\. ", line):
                found.append(re.sub(r"^(- |\d+\. )", "", line))
            else:
                found[-1] += " " + line.strip()
        return numbered, found

    def paragraph(self, lines):
        found = []
        while lines and lines[0].strip() and not re.match(r"- |\d+\. |\||```", lines[0]):
            found.append(lines.pop(0))
        return " ".join(found)

    def html(self, kind, made):
        """The HTML of a block that is no code."""
        words = lambda text: inline(text, self.link)
        if kind == "heading":
            level = len(made) - len(made.lstrip("#"))
            return f"<h{level}>{words(made.strip('# '))}</h{level}>\n"
        if kind == "table":
            head, _, *body = made
            cells = lambda row, tag: "<tr>" + "".join(f"<{tag}>{words(it)}</{tag}>" for it in row) + "</tr>"
            rows = "".join(cells(it, "td") for it in body)
            head = f"<thead>{cells(head, 'th')}</thead>" if any(head) else ""
            return f'<div class="scroll" tabindex="0"><table>{head}<tbody>{rows}</tbody></table></div>\n'
        if kind == "list":
            tag = "ol" if made[0] else "ul"
            return f"<{tag}>" + "".join(f"<li>{words(it)}</li>" for it in made[1]) + f"</{tag}>\n"
        return f"<p>{words(made)}</p>\n"


class Command:
    """A line after a $, and what it wants: the words for b, its files, the input, and a file for its output."""

    def __init__(self, line):
        self.line = line
        words, _, self.out = line.removeprefix(COMMAND).partition(" > ")
        words, _, given = words.partition(" < ")
        self.words, self.input = shlex.split(words), given.strip()
        self.command = self.words[0]
        self.file = next((it for it in self.words[1:] if it.endswith(SOURCES)), "")
        self.libs = [after for word, after in zip(self.words, self.words[1:]) if word == "--with"]

    def is_runnable(self, files):
        names = [it for it in self.words[1:] if re.fullmatch(r"[\w/.-]+\.\w+", it)]
        return "|" not in self.line and bool(self.file) and all(it in files for it in names) and (
            not self.input or self.input in files) and (not self.out or self.out.endswith(SHOWN))


class Chapter:
    """A part of a page, with the programs in it."""

    def __init__(self, name, title, text, reader, only=""):
        self.name, self.title, self.only = name, title, only
        self.parts, self.last = [], ""
        self.sets, self.files, self.starts = [], {}, {}
        self.read(reader, text)

    def read(self, reader, text):
        for kind, made in reader.blocks(text):
            if kind == "code":
                self.code(made)
                continue
            if self.only and kind == "text" and made.startswith("**") and self.files:
                self.finish()
            self.parts.append(reader.html(kind, made))
            self.last = made if kind == "text" else ""
        self.finish()

    def finish(self):
        """Ends a set of programs: where each has one name, the next one begins."""
        self.sets.append({"files": self.files, "starts": self.starts})
        self.files, self.starts = {}, {}

    def code(self, text):
        named = NAMED.search(self.last)
        if text.startswith(COMMAND):
            for part in re.split(r"^(?=\$ )", text, flags=re.M)[1:]:
                line, _, output = part.partition("\n")
                self.run(Command(line), output.strip("\n"))
        elif named or self.only and not self.files:
            self.file(named[1] if named else self.only, text)
        else:
            self.parts.append(f"<pre>{html.escape(text)}</pre>\n")
        self.last = ""

    def file(self, name, text):
        self.files[name] = text
        at = len(self.sets)
        self.parts.append(f'<figure class="file" data-set="{at}" data-file="{html.escape(name)}">'
                          f"<pre>{html.escape(text)}</pre></figure>\n")

    def run(self, command, output):
        line, output = html.escape(command.line.replace("./b", "b", 1)), html.escape(output)
        out = f"<pre>{output}\n</pre>" if output else ""
        if not command.line.startswith(COMMAND) or not command.is_runnable(self.files):
            self.parts.append(f"<pre>{line}\n{output}</pre>\n")
            return
        start = self.starts.get(command.file)
        if not start or command.command == "go" != start["command"]:
            self.starts[command.file] = {"command": command.command, "libs": command.libs, "input": command.input}
        kind = "shown" if command.out else "command"
        self.parts.append(f'<figure class="{kind}" data-set="{len(self.sets)}"><code>{line}</code>{out}</figure>\n')

    def made(self):
        return {"name": self.name, "title": self.title, "html": "".join(self.parts), "sets": self.sets}


def latin(path):
    """The bytes of a file, a character for each."""
    return path.read_bytes().decode("latin-1")


def tests_of(folder):
    for path in sorted((folder / "tests").glob("*.out")):
        test = {"name": path.stem, "out": latin(path)}
        for part, name in (("in", "input"), ("b", "source")):
            if path.with_suffix(f".{part}").exists():
                test[name] = latin(path.with_suffix(f".{part}"))
        if path.with_suffix(".status").exists():
            test["status"] = int(path.with_suffix(".status").read_text())
        yield test


def rules_of(path):
    """The rules that a hand-in has to fit: as one text, and of each its name, what it says, and whether it is wanted."""
    if not path.exists():
        return {"structure": []}
    parts = re.split(r"^rule ", path.read_text(), flags=re.M)[1:]
    named = [(it.split()[0], re.search(r"^\s+says (.*)", it, re.M)) for it in parts]
    rows = [{"name": name, "says": says[1] if says else name, "isWanted": not name.startswith("No")}
            for name, says in named]
    return {"rules": latin(path), "structure": rows}


def exercise(folder, reader):
    """An exercise as class/grade reads it."""
    made = {"name": folder.name, "edition": "1", "steps": 1000000, "libs": {}, "taught": []}
    options = (folder / "options").read_text().split() if (folder / "options").exists() else []
    for word, value in zip(options[::2], options[1::2]):
        if word in OPTIONS:
            made[OPTIONS[word]] = int(value) if word == "--steps" else value
        elif word == "--taught":
            made["taught"].append(value)
        else:
            lib = folder.parent.parent / f"lib/{value}.b" if re.fullmatch(r"\w+", value) else folder / value
            made["libs"][lib.name] = latin(lib)
    for part in ("start", "asks"):
        if (folder / f"{part}.b").exists():
            made[part] = (folder / f"{part}.b").read_text()
    made |= rules_of(folder / "structure")
    text = (folder / "task.md").read_text()
    made["html"] = Chapter(folder.name, "", text.split("\n", 1)[1], reader).made()["html"]
    made["tests"] = list(tests_of(folder))
    return made


def lessons_of(text):
    """The number of the lesson of each exercise, from the table in docs/CLASS.md."""
    return {name: int(number) for name, number in re.findall(r"^\| `(\w+)` \| (\d+) \|", text, re.M)}


def sections(text):
    """The parts of a page that begin with ##, each with its title."""
    return [part.partition("\n")[::2] for part in re.split(r"^## ", text, flags=re.M)[1:]]


def lesson_chapters(top, reader):
    """The chapters of docs/TUTORIAL.md."""
    for title, text in sections((top / "docs/TUTORIAL.md").read_text()):
        number = title.split(".")[0]
        if number.isdigit():
            yield Chapter(f"lesson-{number}", title, f"## {title}\n{text}", reader)


def write_programs(top, folder):
    """Writes the programs of the lessons, and what they read, into a folder of each lesson."""
    for it in lesson_chapters(top, Reader(Link({}, {}))):
        (folder / it.name).mkdir(parents=True, exist_ok=True)
        for name, text in (row for own in it.sets for row in own["files"].items()):
            (folder / it.name / name).write_text(text)


def course(top, start):
    """All that the page takes: chapters, exercises, the library and the examples."""
    docs = top / "docs"
    picture = (docs / "swap.svg").read_text()
    for mark, code in (("%", "%25"), ("#", "%23"), ("<", "%3C"), (">", "%3E"), ('"', "%22"), ("\n", " ")):
        picture = picture.replace(mark, code)
    names = {"LIB.md": "library", "CARD.md": "card", "CLASS.md#mistakes": "mistakes", "TUTORIAL.md": "start",
             "LANGUAGE.md": "language", "COMMANDS.md": "commands"}
    reader = Reader(Link(names, {"swap.svg": "data:image/svg+xml," + picture}))
    chapters = [Chapter("start", "Start here", start, reader), *lesson_chapters(top, reader)]
    mistakes = dict(sections((docs / "CLASS.md").read_text()))["Mistakes"]
    chapters += [
        Chapter("mistakes", "Mistakes", "## Mistakes\n" + mistakes, reader, only="x.b"),
        *(Chapter(name, title, (docs / page).read_text().replace("# ", "## ", 1), reader) for name, title, page in [
            ("card", "B on one sheet", "CARD.md"), ("library", "The files of lib/", "LIB.md"),
            ("language", "The language", "LANGUAGE.md"), ("commands", "The commands", "COMMANDS.md")]),
    ]
    exercises = [exercise(it.parent, reader) for it in sorted(top.glob("class/*/task.md"))]
    numbers = lessons_of((docs / "CLASS.md").read_text())
    for it in exercises:
        it["lesson"] = numbers.get(it["name"], 0)
    order = {name: at for at, name in enumerate(numbers)}
    return {
        "chapters": [it.made() for it in chapters],
        "exercises": sorted(exercises, key=lambda it: order.get(it["name"], len(order))),
        "libs": {it.stem: it.read_text() for it in sorted(top.glob("lib/*.b"))},
        "examples": {it.name: it.read_text() for it in sorted(top.glob("examples/*.b"))},
    }


if __name__ == "__main__":
    if len(sys.argv) != 2:
        sys.exit(__doc__)
    write_programs(pathlib.Path(__file__).resolve().parent.parent, pathlib.Path(sys.argv[1]))
