"""Reads files of definitions in antt, for tools/evaluator.py: their definitions, and expressions as trees.

A tree is a tuple: ("number", n), ("text", word), ("name", word), ("if", condition, yes, no), ("let", name, value,
rest), ("function", names, body), ("tuple", trees), ("record", old or None, [(name, tree)]), ("field", tree, name),
("operator", word, left, right) or ("call", function, trees)."""
import re

from antt_values import Unknown

TOKEN = re.compile(r'--[^\n]*|"(?:\\.|[^"\\])*"|[(){},;]|\n|[^\s(){},;"]+')
# How closely an operator binds, and on which side more of the same may stand.
RANKS = {"→": (12, "r"), "⊎": (18, "r"), "×": (20, "r"), "≡": (22, "n"), "≢": (22, "n"), ">>=": (10, "l")}
RANKS |= {"||": (30, "r"), "&&": (35, "r"), "==": (40, "n"), "≤": (50, "n"), "<": (50, "n"), "^": (80, "r")}
RANKS |= {word: (60, "r") for word in "∷ ++ +++ ▸ ⨾ ▹ ▷".split()}
RANKS |= {word: (65, "l") for word in "+ - -ℤ".split()} | {word: (70, "l") for word in "* / %".split()}
ENDS = {")", "}", ",", ";", "then", "else", "in", "=", "←", "where", ":", "do"}
MODIFIERS = re.compile(r"^((abbrev|unfoldable|opaque|pub) )*")


class Word:
    """A word, its place in the text and in its line, whether it is the line's first one, and touches the one before."""

    __slots__ = ("text", "start", "column", "is_first", "is_close")

    def __init__(self, text, start, column, is_first, is_close):
        self.text, self.start, self.column, self.is_first, self.is_close = text, start, column, is_first, is_close


def words_in(text):
    found, line, is_first, end = [], 0, True, -1
    for made in TOKEN.finditer(text):
        if made[0] == "\n":
            line, is_first = made.end(), True
        elif not made[0].startswith("--"):
            found.append(Word(made[0], made.start(), made.start() - line, is_first, made.start() == end))
            is_first, end = False, made.end()
    return found


# Definitions.


class Definition:
    """A definition: its file, name, type and clauses as texts, and the parameters that a `module _` gives it."""

    def __init__(self, module, name, said, parameters, siblings):
        self.module, self.name, self.said, self.clauses = module, name, said, []
        self.parameters, self.siblings, self.is_fact = parameters, siblings, False

    def count(self):
        """Returns how many arguments it takes."""
        if not self.clauses:
            return 0
        return len(patterns_of(words_in(self.clauses[0]))[0]) + len(self.parameters)


class File:
    """The definitions of a file, its constructors, and what its imports bring."""

    def __init__(self, module, text):
        self.module, self.definitions, self.constructors = module, {}, set()
        self.names, self.aliases = imports_in(text)
        self.take_in(text.split("\n"), [], {})
        for made in self.definitions.values():
            clause = made.clauses[0] if len(made.clauses) == 1 else ""
            made.is_fact = bool(re.fullmatch(r"\S+\s+=\s+refl\s*", clause))

    def take_in(self, lines, parameters, siblings):
        """Takes in the items of lines that begin at one column."""
        items = []
        for line in (it for it in lines if it.strip() and not it.strip().startswith("--")):
            if line.startswith((" ", "}", ")")) and items:
                items[-1].append(line)
            else:
                items.append([line])
        for item in items:
            self.take_item(item, parameters, siblings)

    def take_item(self, lines, parameters, siblings):
        head = lines[0].strip()
        if head.endswith("mutual"):
            self.take_in(dedented(lines[1:]), parameters, siblings)
        elif head.startswith("module "):
            last = next(i for i, line in enumerate(lines) if line.rstrip().endswith("where"))
            groups = re.findall(r"\(([^():]+) : ", " ".join(lines[: last + 1]))
            named = [name for group in groups for name in group.split()]
            self.take_in(dedented(lines[last + 1 :]), parameters + named, {})
        elif re.match(r"(pub )?data ", head):
            self.constructors |= {line.split()[0] for line in lines[1:] if " : " in line}
        elif not re.match(r"(pub )?(use|record) |infix|unfolding", head):
            self.take_definition("\n".join([MODIFIERS.sub("", head), *lines[1:]]), parameters, siblings)

    def take_definition(self, text, parameters, siblings):
        """Takes in the type of a definition, or one of its clauses."""
        name = text.split()[0]
        if made := re.match(r"\S+\s+:\s", text):
            siblings[name] = Definition(self.module, name, text[made.end() :], parameters, siblings)
            self.definitions[name] = siblings[name]
        elif name in siblings:
            siblings[name].clauses.append(text)
        else:
            raise Unknown(f"a clause of no definition: {self.module}: {text[:60]}")


def dedented(lines):
    least = min((len(it) - len(it.lstrip()) for it in lines), default=0)
    return [it[least:] for it in lines]


def imports_in(text):
    """Returns the names that a file's imports bring, each with its path and its name there, and the aliases."""
    names, aliases = {}, {}
    pattern = r"^(?:pub )?use (Rattle[\w.◌]*?)(?:\.\{([^}]*)\})?(?: as (\w+))?$"
    for path, group, alias in re.findall(pattern, text, re.M):
        if alias:
            aliases[alias] = path
        for name in filter(None, (it.strip() for it in group.split(","))):
            real, _, other = name.partition(" as ")
            names[other or real] = (path, real)
    return names, aliases


def group_end(words, at):
    """Returns where what begins with a bracket at this place is over."""
    depth = 0
    for i in range(at, len(words)):
        depth += (words[i].text in "({") - (words[i].text in ")}")
        if depth == 0:
            return i + 1
    raise Unknown("an open bracket")


def patterns_of(words):
    """Returns the patterns of a clause, each as its words, and the words after its `=`."""
    patterns, at = [], 1
    while words[at].text != "=":
        end = group_end(words, at) if words[at].text in "({" else at + 1
        if words[at].text != "{":
            patterns.append(words[at:end])
        at = end
    return patterns, words[at + 1 :]


# Expressions.


class Reader:
    """Reads an expression from its words."""

    def __init__(self, words):
        self.words, self.at = words, 0

    def now(self):
        return self.words[self.at].text if self.at < len(self.words) else None

    def next(self):
        self.at += 1
        return self.words[self.at - 1].text

    def skip(self, text):
        if self.next() != text:
            raise Unknown(f"no {text} before {[it.text for it in self.words[self.at : self.at + 5]]}")

    def is_over(self, column):
        """Returns whether a step of a `do` with steps at this column is over here."""
        word = self.words[self.at] if self.at < len(self.words) else None
        return word is None or (column is not None and word.is_first and word.column <= column)

    def whole(self):
        """Returns the tree of all words."""
        tree = self.expression()
        if self.at != len(self.words):
            raise Unknown(f"left over: {[it.text for it in self.words[self.at : self.at + 5]]}")
        return tree

    def expression(self, rank=0, column=None):
        tree = self.operand(column)
        while not self.is_over(column) and self.now() in RANKS and RANKS[self.now()][0] >= rank:
            binds, side = RANKS[self.now()]
            word = self.next()
            tree = ("operator", word, tree, self.expression(binds + (side != "r"), column))
        return tree

    def operand(self, column):
        ways = {"λ": self.function, "if": self.choice, "let": self.binding, "do": self.steps}
        return ways.get(self.now(), self.call)(column)

    def choice(self, column):
        self.skip("if")
        condition = self.expression(0, column)
        self.skip("then")
        yes = self.expression(0, column)
        self.skip("else")
        return ("if", condition, yes, self.expression(0, column))

    def binding(self, column):
        self.skip("let")
        name = self.next()
        while self.now() != "=":
            self.next()
        self.skip("=")
        value = self.expression(0, column)
        self.skip("in")
        return ("let", name, value, self.expression(0, column))

    def function(self, column):
        self.skip("λ")
        names, is_over = [], False
        while not is_over:
            word = self.next()
            if word == "(":
                names.append(self.next())
                self.at = group_end(self.words, self.at - 2)
                is_over = self.now() == "."
                self.at += is_over
            else:
                names.append(word.rstrip("."))
                is_over = word.endswith(".")
        return ("function", names, self.expression(0, column))

    def steps(self, column):
        """The steps of a `do`: each one but the last is bound by the next."""
        self.skip("do")
        column, found = self.words[self.at].column, []
        while not found or (self.now() and self.words[self.at].column == column and self.is_over(column)):
            is_named = self.at + 1 < len(self.words) and self.words[self.at + 1].text == "←"
            name = self.next() if is_named else "_"
            self.at += is_named
            found.append((name, self.expression(0, column)))
        tree = found.pop()[1]
        for name, step in reversed(found):
            tree = ("operator", ">>=", step, ("function", [name], tree))
        return tree

    def call(self, column):
        head, given = self.atom(), []
        while not self.is_over(column) and self.now() not in ENDS and self.now() not in RANKS:
            if self.now() == "{":
                self.at = group_end(self.words, self.at)
            elif self.now() in ("λ", "if", "let"):
                given.append(self.operand(column))
            else:
                given.append(self.atom())
        if self.now() == "do":
            given.append(self.steps(column))
        return ("call", head, given) if given else head

    def atom(self):
        word = self.next()
        if word == "(":
            return self.bracketed()
        if word == "record":
            return self.record()
        if word.startswith('"'):
            return ("text", word)
        if word == "elim" or (word == "[" and self.next()):
            return ("number", 0)
        if word in ENDS or word in RANKS:
            raise Unknown(f"unexpected: {word}")
        return ("number", int(word)) if word.isdigit() else ("name", word)

    def bracketed(self):
        trees = [self.expression()]
        while self.now() == ",":
            self.next()
            if self.now() != ")":
                trees.append(self.expression())
        self.skip(")")
        tree = trees[0] if len(trees) == 1 else ("tuple", trees)
        if self.at < len(self.words) and self.words[self.at].is_close and self.now().startswith("."):
            for name in self.next()[1:].split("."):
                tree = ("field", tree, name)
        return tree

    def record(self):
        old = None if self.now() == "{" else self.atom()
        self.skip("{")
        fields = []
        while self.now() != "}":
            name = self.next()
            self.skip("=")
            fields.append((name, self.expression()))
            self.at += self.now() == ";"
        self.skip("}")
        return ("record", old, fields)
