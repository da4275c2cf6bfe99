"""Kinds of slips that somebody makes in a right program, and where each can be made. tools/slips uses it."""
import re
from typing import NamedTuple

KEYWORDS = set("auto extrn case if else while switch goto return break default".split())
PIECE = re.compile(
    r"""\s+|/\*.*?\*/|[A-Za-z_]\w*|\d+|'(?:\*.|[^'])*'|"(?:\*.|[^"])*\""""
    r"""|=(?:<<|>>|==|!=|<=|>=|[-+*/%&|<>=])?|<<|>>|==|!=|<=|>=|\+\+|--|.""",
    re.S,
)
NAME = re.compile(r"[A-Za-z_]\w*")
ESCAPE = re.compile(r"\*([nte])")
OPENS, CLOSES = "([{", ")]}"
COMPARISONS = "==", "!=", "<", "<=", ">", ">="


class Slip(NamedTuple):
    """A part of a source, and what stands there in its place."""

    start: int
    end: int
    text: str

    def made_in(self, source):
        return source[:self.start] + self.text + source[self.end:]


class Token(NamedTuple):
    """A token, where it stands, and how many braces are open before it."""

    start: int
    text: str
    depth: int

    @property
    def end(self):
        return self.start + len(self.text)

    def slip(self, text):
        return Slip(self.start, self.end, text)


class Source:
    """A source in tokens and comments."""

    def __init__(self, text):
        self.text, self.tokens, self.comments, depth = text, [], [], 0
        for found in PIECE.finditer(text):
            if found[0].startswith("/*"):
                self.comments.append(Token(found.start(), found[0], depth))
            elif not found[0].isspace():
                self.tokens.append(Token(found.start(), found[0], depth))
                depth += (found[0] == "{") - (found[0] == "}")

    def pairs(self):
        return zip(self.tokens, self.tokens[1:])

    def names(self):
        return [it for it in self.tokens if NAME.match(it.text) and it.text not in KEYWORDS]

    def closing(self, at):
        """The index of what closes the parenthesis or bracket of this index."""
        open_ones = 0
        for index in range(at, len(self.tokens)):
            text = self.tokens[index].text
            open_ones += (text in OPENS) - (text in CLOSES)
            if open_ones == 0:
                return index
        return len(self.tokens) - 1

    def declarations(self, *words):
        """The tokens of each declaration by one of these words, from the word to its semicolon."""
        for at, it in enumerate(self.tokens):
            if it.text in words:
                end = next((k for k in range(at, len(self.tokens)) if self.tokens[k].text == ";"), at)
                yield self.tokens[at:end + 1]

    def headers(self):
        """The parentheses of each condition, and of each call, as a pair of indexes, with the token before them."""
        for at, (before, it) in enumerate(self.pairs(), 1):
            if it.text == "(" and NAME.match(before.text):
                yield before, at, self.closing(at)


# How each kind is made. Each function takes a source and gives its slips.


def replaced(words):
    """Each token of a table by what it has there."""
    return lambda source: [it.slip(words[it.text]) for it in source.tokens if it.text in words]


def tokens_by(change, *texts):
    return lambda source: [it.slip(change(it.text)) for it in source.tokens if not texts or it.text in texts]


def left_out(*texts):
    return tokens_by(lambda _: "", *texts)


def doubled(*texts):
    return tokens_by(lambda text: text + (" " if text[-1].isalnum() else "") + text, *texts)


def quoted(source, mark):
    return [it for it in source.tokens if it.text[0] == mark and len(it.text) > 1]


def without_a_mark(mark):
    return lambda source: [slip for it in quoted(source, mark)
                           for slip in (it.slip(it.text[1:]), it.slip(it.text[:-1]))]


def marks_doubled(source):
    return [slip for mark in "'\"" for it in quoted(source, mark)
            for slip in (it.slip(mark + it.text), it.slip(it.text + mark))]


def marks_by(mark, other):
    return lambda source: [it.slip(other + it.text[1:-1] + other) for it in quoted(source, mark)]


def escapes_of_c(source):
    return [Slip(it.start + found.start(), it.start + found.end(), "\\" + found[1].replace("e", "0"))
            for mark in "'\"" for it in quoted(source, mark) for found in ESCAPE.finditer(it.text)]


def stars_of_c(source):
    return [Slip(it.start + found.start(), it.start + found.end(), "*")
            for mark in "'\"" for it in quoted(source, mark) for found in re.finditer(r"\*\*", it.text)]


def mistyped(name, start):
    """A name with two letters swapped, or with one left out, doubled, or another one."""
    at = start % len(name)
    if len(name) == 1:
        ways = [name * 2, "jkxyz"[start % 5], name + "1"]
    else:
        at = min(at, len(name) - 2)
        ways = [name[:at] + name[at + 1] + name[at] + name[at + 2:], name[:at] + name[at + 1:],
                name[:at] + name[at] + name[at:], name[:at + 1] + "aeiou"[start % 5] + name[at + 2:]]
    ways = [it for it in ways if it != name and NAME.fullmatch(it) and len(it) < 9 and it not in KEYWORDS]
    return ways[start % len(ways)] if ways else name[:-1]


def in_declarations(source):
    return [it.slip(mistyped(it.text, it.start)) for them in source.declarations("auto") for it in them[1:]
            if NAME.match(it.text)]


def declared_at(source):
    return {it.start for them in source.declarations("auto", "extrn") for it in them}


def in_uses(source):
    skipped = declared_at(source) | {before.start for before, *_ in source.headers()}
    return [it.slip(mistyped(it.text, it.start)) for it in source.names() if it.depth and it.start not in skipped]


def in_calls(source):
    return [it.slip(mistyped(it.text, it.start)) for it, *_ in source.headers() if it.depth and it.text not in KEYWORDS]


def keywords_mistyped(source):
    return [it.slip(it.text.capitalize() if it.start % 3 == 0 else mistyped(it.text, it.start))
            for it in source.tokens if it.text in KEYWORDS]


def declarations_left_out(word):
    return lambda source: [Slip(them[0].start, them[-1].end, "") for them in source.declarations(word)]


def names_not_declared(source):
    """One name of several left out, with its comma."""
    for them in source.declarations("auto", "extrn"):
        for before, it in zip(them, them[1:]):
            if before.text == ",":
                following = them[them.index(it) + 1]
                yield Slip(before.start, (following if following.text.isdigit() else it).end, "")


def declared_again(source):
    """A name of the function declared anew in an inner block."""
    names = []
    for it, after in source.pairs():
        if it.depth == 0:
            names = []
        if it.text == "auto":
            names.append(after.text)
        if it.text == "{" and it.depth and names and after.text != "case":
            yield Slip(it.end, it.end, f" auto {names[it.start % len(names)]};")


def arguments_left_out(source):
    for before, at, end in source.headers():
        if before.text in KEYWORDS or not before.depth or end == at + 1:
            continue
        inner, open_ones = [at], 0
        for index in range(at + 1, end):
            text = source.tokens[index].text
            open_ones += (text in OPENS) - (text in CLOSES)
            if text == "," and not open_ones:
                inner.append(index)
        for first, last in zip(inner, [*inner[1:], end]):
            start = source.tokens[first].end if first == at else source.tokens[first].start
            stop = source.tokens[last].end if first == at and last != end else source.tokens[last].start
            yield Slip(start, stop, "")


def swapped(source):
    for it, after in source.pairs():
        between = source.text[it.end:after.start]
        if "\n" not in between and it.text != after.text:
            yield Slip(it.start, after.end, after.text + (between or " ") + it.text)


def logical_of_c(source):
    """A sign between two comparisons doubled."""
    for at, it in enumerate(source.tokens):
        before, after = source.tokens[max(at - 3, 0):at], source.tokens[at + 1:at + 4]
        if it.text in ("&", "|") and all(any(one.text in COMPARISONS for one in them) for them in (before, after)):
            yield it.slip(it.text * 2)


def conditions_ended(source):
    return [Slip(source.tokens[end].end, source.tokens[end].end, ";") for before, _, end in source.headers()
            if before.text in ("if", "while")]


def without_parentheses(*words):
    """The parentheses after a keyword left out, as other languages have it."""
    for_text = lambda source, at, end: source.text[source.tokens[at].end:source.tokens[end].start]
    return lambda source: [Slip(source.tokens[at].start, source.tokens[end].end, " " + for_text(source, at, end))
                           for before, at, end in source.headers() if before.text in words]


def called_as_index(source):
    return [Slip(it.start, source.tokens[end].end,
                 f"({source.text[it.end:source.tokens[end].start]})")
            for at, it in enumerate(source.tokens) if it.text == "[" and it.depth
            for end in [source.closing(at)]]


def signs_close(source):
    return [Slip(it.end, after.start, "") for it, after in source.pairs()
            if it.text == "=" and after.text in ("-", "*", "&") and it.end < after.start]


def comments_ends(source):
    ways = ("*n/", "/", "*", "* /", "")
    return [Slip(it.end - 2, it.end, way) for it in source.comments for way in ways]


def comments_in_comments(source):
    return [Slip(it.start + found.end(), it.start + found.end(), " /* so */") for it in source.comments
            for found in list(re.finditer(r"\w+", it.text))[:3]]


def values_in_declarations(source):
    """auto i; as auto i = 0;"""
    return [Slip(it.end, it.end, " = 0") for them in source.declarations("auto")
            for it, after in zip(them[1:], them[2:]) if NAME.match(it.text) and after.text in ",;"]


OF_ASSIGNMENT = {f"={it}": f"{it}=" for it in "+-*/%&|"}
KINDS = {
    "no `;`": left_out(";"),
    "no `{`": left_out("{"),
    "no `}`": left_out("}"),
    "no `(`": left_out("("),
    "no `)`": left_out(")"),
    "no `[` or `]`": left_out("[", "]"),
    "no `,`": left_out(","),
    "no `\"`": without_a_mark('"'),
    "no `'`": without_a_mark("'"),
    "a `;`, comma or bracket doubled": doubled(*";,(){}[]"),
    "a quote doubled": marks_doubled,
    "`\"` for `'`": marks_by("'", '"'),
    "`'` for `\"`": marks_by('"', "'"),
    "`=` for `==`": replaced({"==": "="}),
    "`==` for `=`": replaced({"=": "=="}),
    "`=<` for `<=`, `=>` for `>=`": replaced({"<=": "=<", ">=": "=>"}),
    "`<` for `<=`, `>=` for `>`": replaced({"<=": "<", "<": "<=", ">=": ">", ">": ">="}),
    "`&&` or `||`": logical_of_c,
    "`+=` for `=+`": replaced(OF_ASSIGNMENT),
    "`=-1` for `= -1`": signs_close,
    "`\\n` for `*n`": escapes_of_c,
    "`*` for `**` in a string": stars_of_c,
    "`v(i)` for `v[i]`": called_as_index,
    "a name mistyped in its `auto`": in_declarations,
    "a name mistyped in a use": in_uses,
    "a name mistyped in a call": in_calls,
    "a keyword mistyped": keywords_mistyped,
    "an `auto ..;` left out": declarations_left_out("auto"),
    "an `extrn ..;` left out": declarations_left_out("extrn"),
    "a name left out of a declaration": names_not_declared,
    "an inner `auto` again": declared_again,
    "`int` or `char` for `auto`": tokens_by(lambda _: "int", "auto"),
    "`auto i = 0;`": values_in_declarations,
    "`return x;`, `if x`": without_parentheses("return", "if", "while"),
    "`;` after a condition": conditions_ended,
    "`:` for `;`, `;` for `:` or `,`": replaced({";": ":", ":": ";", ",": ";"}),
    "an argument left out": arguments_left_out,
    "a comment's end mistyped": comments_ends,
    "a comment in a comment": comments_in_comments,
    "two neighbours swapped": swapped,
    "a token left out": left_out(),
    "a token doubled": doubled(),
}
