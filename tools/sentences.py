"""The sentences of the page for browsers, and its tables of them in other languages: `faults(folder)` tells which
sentence of share/web has no row in a table, and which row no sentence. tools/make-page says it.

A sentence is a template string with the tag `t` in a script, or a text, title, label or placeholder of page.html. Its
key has a number in braces for each value."""
import html.parser
import json
import re

TABLES = {"german.mjs": "German"}
ATTRIBUTES = ("title", "aria-label", "placeholder")
UNREAD, NAMES = ("script", "style", "noscript"), ("kbd", "b")
TAG = re.compile(r"(?<![\w.$])t`")
ESCAPED = re.compile(r"\\(u[0-9a-f]{4}|.)", re.S)


def unescaped(text):
    return ESCAPED.sub(lambda it: chr(int(it[1][1:], 16)) if len(it[1]) > 1 else {"n": "\n"}.get(it[1], it[1]), text)


def past_value(text, at):
    """The place after the brace that ends a value, which may have strings and templates itself."""
    depth = 1
    while depth:
        if text[at] == "`":
            at = template(text, at + 1)[1]
            continue
        if text[at] in "'\"":
            at = re.compile(rf"{text[at]}(?:\\.|[^\\])*?{text[at]}").match(text, at).end()
            continue
        depth += {"{": 1, "}": -1}.get(text[at], 0)
        at += 1
    return at


def template(text, at):
    """The key of the template string that begins at a place, and the place after it."""
    key, count = "", 0
    while text[at] != "`":
        if text.startswith("${", at):
            key, count, at = f"{key}{{{count}}}", count + 1, past_value(text, at + 2)
        else:
            size = 2 if text[at] == "\\" else 1
            key, at = key + text[at:at + size], at + size
    return unescaped(key), at + 1


class Static(html.parser.HTMLParser):
    """The texts and attributes of a page that a person reads. A paragraph with keys or names in its sentences is one
    text, with these as its values."""

    def __init__(self, text):
        super().__init__()
        self.keys, self.unread, self.parts, self.inner, self.count = set(), 0, None, 0, 0
        self.feed(text)

    def put(self, text):
        words = " ".join((text or "").split())
        if not self.unread and re.search(r"[^\W\d_]{2}", words):
            self.keys.add(words)

    def handle_starttag(self, tag, attrs):
        self.unread += tag in UNREAD
        for name, value in attrs:
            if name in ATTRIBUTES:
                self.put(value)
        if tag == "p":
            self.parts, self.count = [], 0
        elif tag in NAMES and self.parts is not None:
            self.parts.append(f"{{{self.count}}}")
            self.count += 1
            self.inner += 1

    def handle_endtag(self, tag):
        if tag == "p":
            for it in ["".join(self.parts)] if self.count else self.parts:
                self.put(it)
            self.parts = None
        self.inner -= tag in NAMES and self.parts is not None
        self.unread -= tag in UNREAD

    def handle_data(self, data):
        if self.parts is None or self.inner:
            self.put(data)
        else:
            self.parts.append(data)


def sentences(folder):
    """The keys of all sentences."""
    keys = set()
    for path in folder.glob("*.html"):
        keys |= Static(path.read_text()).keys
    for path in folder.glob("*.mjs"):
        text = path.read_text()
        if path.name != "words.mjs":
            keys |= {template(text, it.end())[0] for it in TAG.finditer(text)}
    return keys


def values(text):
    return sorted(re.findall(r"\{\d+\}", text))


def rows_of(text):
    """The rows of a table, whose object is JSON."""
    return json.loads(text[text.index("= {") + 2:].rstrip("; \n"), object_pairs_hook=list)


def faults(folder):
    keys, told = sentences(folder), []
    for name, language in TABLES.items():
        rows = rows_of((folder / name).read_text())
        known = [key for key, _ in rows]
        told += [f"no {language} for: {it}" for it in sorted(keys - set(known))]
        told += [f"no sentence for the row: {it}" for it in sorted(set(known) - keys)]
        told += [f"two rows for: {it}" for it in sorted({it for it in known if known.count(it) > 1})]
        told += [f"other values in the row: {key}" for key, made in rows if values(key) != values(made)]
    return told
